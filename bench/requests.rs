//! Requests as requests.py writes them.
use std::path::Path;

pub struct Request {
    pub title: String,
    /// As it stands in the file.
    pub raw: Vec<u8>,
    pub declaration: bool,
    /// root, indent, width; of two rows that are compared the rows, and 0
    pub numbers: [u32; 3],
    pub bytes: Vec<u8>,
    pub words: Vec<u32>,
}

pub fn read(folder: &Path, name: &str) -> Vec<Request> {
    let data = std::fs::read(folder.join(name).with_extension("req")).expect("requests.py writes the requests");
    let titles = std::fs::read_to_string(folder.join(name).with_extension("txt")).expect("requests.py writes the titles");
    let u = |at: usize| u32::from_le_bytes(data[at..at + 4].try_into().unwrap());
    let (mut at, mut out) = (0, Vec::new());
    for title in titles.lines() {
        let byte_end = at + 24 + u(at + 20) as usize;
        let end = byte_end + 4 + 4 * u(byte_end) as usize;
        out.push(Request {
            title: title.into(),
            raw: data[at..end].to_vec(),
            declaration: u(at + 4) == 1,
            numbers: [u(at + 8), u(at + 12), u(at + 16)],
            bytes: data[at + 24..byte_end].to_vec(),
            words: data[byte_end + 4..end].chunks(4).map(|w| u32::from_le_bytes(w.try_into().unwrap())).collect(),
        });
        at = end;
    }
    assert!(at == data.len(), "a title for each request");
    out
}
