// The yardstick of messages.sh: a plain loop over the same requests, as a good engineer would write it for speed.
// `plain_messages SIZE PIECE` reads SIZE pipelined GET requests that come in pieces of PIECE bytes. It parses each head into
// slices, looks at the same fields and limits, finds the route and copies what a message hands on.
use std::env;

const GET: &[u8] = b"GET /id/10.70001/c1/data HTTP/1.1\r\nHost: localhost\r\nUser-Agent: curl/8.0\r\nAccept: */*\r\n\r\n";

#[allow(dead_code)]
enum Ask {
    State,
    Page(Vec<u8>),
    Bytes(Vec<u8>),
    Metadata(Vec<u8>),
    Batch(u32, Vec<u8>, u32, Vec<u8>),
    Cite(Vec<u8>),
    Migrate(u32, Vec<u8>),
    Bad(u16),
}

#[allow(dead_code)]
struct Message {
    ask: Ask,
    closing: bool,
}

struct Head<'a> {
    method: &'a [u8],
    target: &'a [u8],
    minor: u8,
    fields: Vec<(&'a [u8], &'a [u8])>,
}

fn is_token(b: u8) -> bool {
    b.is_ascii_alphanumeric() || b"!#$%&'*+-.^_`|~".contains(&b)
}

fn trim(text: &[u8]) -> &[u8] {
    let front = text.iter().position(|b| *b != b' ' && *b != b'\t').unwrap_or(text.len());
    let back = text.iter().rposition(|b| *b != b' ' && *b != b'\t').map_or(front, |i| i + 1);
    &text[front..back]
}

// The lines of a head, without their ends.
fn line<'a>(rest: &mut &'a [u8]) -> Option<&'a [u8]> {
    let end = rest.iter().position(|b| *b == b'\n')?;
    let line = &rest[..end];
    *rest = &rest[end + 1..];
    Some(line.strip_suffix(b"\r").unwrap_or(line))
}

fn parse(head: &[u8]) -> Option<Head<'_>> {
    let mut rest = head;
    let first = line(&mut rest)?;
    let space = first.iter().position(|b| *b == b' ')?;
    let method = &first[..space];
    let behind = &first[space + 1..];
    let space = behind.iter().position(|b| *b == b' ')?;
    let target = &behind[..space];
    let minor = match &behind[space + 1..] {
        b"HTTP/1.1" => 1,
        b"HTTP/1.0" => 0,
        _ => return None,
    };
    if method.is_empty() || !method.iter().all(|b| is_token(*b)) {
        return None;
    }
    if target.is_empty() || target.iter().any(|b| *b <= b' ' || *b == 127) || std::str::from_utf8(target).is_err() {
        return None;
    }
    let mut fields = Vec::with_capacity(16);
    loop {
        let line = line(&mut rest)?;
        if line.is_empty() {
            return Some(Head { method, target, minor, fields });
        }
        let colon = line.iter().position(|b| *b == b':')?;
        let (name, value) = (&line[..colon], &line[colon + 1..]);
        if name.is_empty() || !name.iter().all(|b| is_token(*b)) || fields.len() == 64 {
            return None;
        }
        if value.iter().any(|b| (*b < b' ' && *b != b'\t') || *b == 127) {
            return None;
        }
        fields.push((name, trim(value)));
    }
}

fn count(text: &[u8]) -> Option<u32> {
    if text.first() == Some(&b'0') || text.first() == Some(&b'+') {
        return None;
    }
    std::str::from_utf8(text).ok()?.parse().ok()
}

fn length(fields: &[(&[u8], &[u8])]) -> Option<usize> {
    let mut found = None;
    for (name, value) in fields {
        if name.eq_ignore_ascii_case(b"content-length") {
            if found.is_some() || value.is_empty() || value.len() > 18 || !value.iter().all(u8::is_ascii_digit) {
                return None;
            }
            found = std::str::from_utf8(value).ok()?.parse().ok();
        }
    }
    Some(found.unwrap_or(0))
}

fn closes(head: &Head) -> bool {
    head.minor == 0
        || head.fields.iter().any(|(name, value)| {
            name.eq_ignore_ascii_case(b"connection")
                && value.split(|b| *b == b',').any(|word| trim(word).eq_ignore_ascii_case(b"close"))
        })
}

fn name(prefix: &[u8], suffix: &[u8]) -> Vec<u8> {
    [prefix, b"/", suffix].concat()
}

fn only(is_method: bool, ask: impl FnOnce() -> Ask) -> Ask {
    if is_method { ask() } else { Ask::Bad(405) }
}

fn ask(method: &[u8], target: &[u8], body: &[u8]) -> Ask {
    let end = target.iter().position(|b| *b == b'?' || *b == b'#').unwrap_or(target.len());
    let Some(path) = target[..end].strip_prefix(b"/") else {
        return Ask::Bad(400);
    };
    let mut parts = path.split(|b| *b == b'/');
    let parts = [parts.next(), parts.next(), parts.next(), parts.next(), parts.next()];
    let (get, post) = (method == b"GET", method == b"POST");
    let full = |text: &[u8]| !text.is_empty();
    match parts {
        [Some(b"state"), None, ..] => only(get, || Ask::State),
        [Some(b"cite"), None, ..] => only(post, || Ask::Cite(body.to_vec())),
        [Some(b"migrate"), Some(schema), None, ..] if full(schema) => only(post, || match count(schema) {
            Some(schema) => Ask::Migrate(schema, body.to_vec()),
            None => Ask::Bad(400),
        }),
        [Some(b"id"), Some(a), Some(b), None, ..] if full(a) && full(b) => only(get, || Ask::Page(name(a, b))),
        [Some(b"id"), Some(a), Some(b), Some(b"data"), None] if full(a) && full(b) => {
            only(get, || Ask::Bytes(name(a, b)))
        }
        [Some(b"id"), Some(a), Some(b), Some(b"meta"), None] if full(a) && full(b) => {
            only(get, || Ask::Metadata(name(a, b)))
        }
        [Some(b"batch"), Some(a), Some(b), Some(c), None] if full(a) && full(b) && full(c) => {
            only(post, || match (count(a), count(c)) {
                (Some(schema), Some(number)) => Ask::Batch(schema, b.to_vec(), number, body.to_vec()),
                _ => Ask::Bad(400),
            })
        }
        _ => Ask::Bad(404),
    }
}

struct Reader {
    bytes: Vec<u8>,
    start: usize,
    searched: usize,
    closed: bool,
}

impl Reader {
    fn feed(&mut self, piece: &[u8]) {
        self.bytes.drain(..self.start);
        self.start = 0;
        self.bytes.extend_from_slice(piece);
    }

    fn refuse(&mut self, code: u16) -> Option<Message> {
        self.closed = true;
        Some(Message { ask: Ask::Bad(code), closing: true })
    }

    fn next(&mut self) -> Option<Message> {
        if self.closed {
            return None;
        }
        while self.searched == 0 && matches!(self.bytes.get(self.start), Some(b'\r' | b'\n')) {
            self.start += 1;
        }
        let rest = &self.bytes[self.start..];
        let limit = rest.len().min(16384);
        let mut end = None;
        for i in self.searched..limit {
            if rest[i] == b'\n' && (rest[..i].ends_with(b"\n") || rest[..i].ends_with(b"\n\r")) {
                end = Some(i + 1);
                break;
            }
        }
        let Some(end) = end else {
            self.searched = limit;
            return if limit == 16384 { self.refuse(431) } else { None };
        };
        if rest[..end].iter().filter(|b| **b == b'\n').count() > 66 {
            return self.refuse(431);
        }
        let Some(head) = parse(&rest[..end]) else {
            return self.refuse(400);
        };
        if head.fields.iter().any(|(name, _)| name.eq_ignore_ascii_case(b"transfer-encoding")) {
            return self.refuse(501);
        }
        match length(&head.fields) {
            None => self.refuse(400),
            Some(size) if size > 8388608 => self.refuse(413),
            Some(size) if size > rest.len() - end => {
                self.searched = end - 1;
                None
            }
            Some(size) => {
                let closing = closes(&head);
                let ask = ask(head.method, head.target, &rest[end..end + size]);
                self.start += end + size;
                self.searched = 0;
                self.closed = closing;
                Some(Message { ask, closing })
            }
        }
    }
}

fn main() {
    let words: Vec<usize> = env::args().skip(1).filter_map(|word| word.parse().ok()).collect();
    let (size, piece) = (words[0], words[1]);
    let text = GET.repeat(size);
    let mut reader = Reader { bytes: Vec::new(), start: 0, searched: 0, closed: false };
    let mut given = 0;
    for part in text.chunks(piece) {
        reader.feed(part);
        while let Some(message) = reader.next() {
            std::hint::black_box(&message);
            given += 1;
        }
    }
    println!("{given} messages of {} bytes", text.len());
}
