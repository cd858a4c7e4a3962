//! The same responses, taken apart by the calls of Rust's `httparse`, and the bytes kept in one vector. A head or a size line
//! that isn't whole is parsed again from its front when more has come: `httparse` keeps no place.
//!
//! Shape, count and piece length as in the programs beside it. Trailers aren't taken.
use httparse::{parse_chunk_size, Response, Status, EMPTY_HEADER};

const CHUNKED: &[u8] = b"HTTP/1.1 200 OK\r\nTransfer-Encoding: chunked\r\n\r\n";

fn repeated(front: &[u8], unit: &[u8], count: usize, end: &[u8]) -> Vec<u8> {
    let mut bytes = front.to_vec();
    for _ in 0..count {
        bytes.extend_from_slice(unit);
    }
    bytes.extend_from_slice(end);
    bytes
}

fn chunks(line: &[u8], size: usize, count: usize) -> Vec<u8> {
    let unit = [line, &vec![b'x'; size], b"\r\n"].concat();
    repeated(CHUNKED, &unit, count, b"0\r\n\r\n")
}

fn response(shape: &str, count: usize) -> Vec<u8> {
    match shape {
        "bytes" => chunks(b"1\r\n", 1, count),
        "hundreds" => chunks(b"64\r\n", 100, count),
        "blocks" => chunks(b"4000\r\n", 16_384, count),
        "extension" => repeated(&[CHUNKED, b"0;"].concat(), &[b'x'; 1024], count, b"\r\n\r\n"),
        _ => {
            let line = [b"A-field: ", [b'x'; 489].as_slice(), b"\r\n"].concat();
            repeated(b"HTTP/1.1 204 No Content\r\n", &line, count, b"\r\n")
        }
    }
}

#[derive(Default)]
struct Decoder {
    wire: Vec<u8>,
    at: usize,
    is_in_body: bool,
    parts: Vec<(u32, u32)>,
    is_done: bool,
}

impl Decoder {
    fn head(&mut self) -> bool {
        let mut fields = [EMPTY_HEADER; 128];
        let mut head = Response::new(&mut fields);
        match head.parse(&self.wire) {
            Ok(Status::Complete(end)) => {
                self.at = end;
                self.is_in_body = true;
                self.is_done = head.code == Some(204);
                true
            }
            _ => false,
        }
    }

    /// Whether a chunk was taken.
    fn chunk(&mut self) -> bool {
        let rest = &self.wire[self.at..];
        match parse_chunk_size(rest) {
            Ok(Status::Complete((line, size))) if rest.len() >= line + size as usize + 2 => {
                let start = self.at + line;
                let end = start + size as usize;
                if size == 0 {
                    self.is_done = true;
                } else {
                    self.parts.push((start as u32, end as u32));
                }
                self.at = end + 2;
                true
            }
            _ => false,
        }
    }

    fn feed(&mut self, piece: &[u8]) {
        self.wire.extend_from_slice(piece);
        if !self.is_in_body && !self.head() {
            return;
        }
        while !self.is_done && self.chunk() {}
    }
}

fn main() {
    let words: Vec<String> = std::env::args().collect();
    let bytes = response(&words[1], words[2].parse().unwrap());
    let len: usize = words[3].parse().unwrap();
    let mut decoder = Decoder::default();
    if len > 0 {
        for piece in bytes.chunks(len) {
            decoder.feed(piece);
        }
    }
    println!("{}", if decoder.is_done { "complete" } else { "not complete" });
}
