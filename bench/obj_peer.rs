// Reading and writing OBJ in plain Rust over flat arrays: the word FILE prints what sopcook prints of a file node.
// It takes points, vt, vn and closed primitives with positive references, as the measured files have them.
use std::fs;
use std::io::{self, Write};

type Vector = [i64; 3];

const UNIT: u64 = 1_000_000;

/// A geometry over flat arrays.
#[derive(Default)]
struct Geometry {
    places: Vec<Vector>,
    textures: Vec<Vector>,
    normals: Vec<Vector>,
    sizes: Vec<u32>,
    corners: Vec<u32>,
    corner_textures: Vec<Vector>,
    corner_normals: Vec<Vector>,
}

fn digit(byte: u8) -> i64 {
    i64::from(byte - b'0')
}

/// Millionths of a decimal with at most six digits behind the point.
fn number(word: &[u8]) -> i64 {
    let (negative, word) = match word {
        [b'-', rest @ ..] => (true, rest),
        _ => (false, word),
    };
    let mut parts = word.splitn(2, |byte| *byte == b'.');
    let whole = parts.next().unwrap_or(b"");
    let fraction = parts.next().unwrap_or(b"");
    let mut millionths = whole.iter().fold(0, |sum, byte| sum * 10 + digit(*byte));
    for place in 0..6 {
        millionths = millionths * 10 + fraction.get(place).map_or(0, |byte| digit(*byte));
    }
    if negative { -millionths } else { millionths }
}

fn index(part: &[u8]) -> usize {
    part.iter()
        .fold(0, |sum, byte| sum * 10 + usize::from(byte - b'0'))
}

fn words(line: &[u8]) -> impl Iterator<Item = &[u8]> {
    line.split(|byte| *byte == b' ')
        .filter(|word| !word.is_empty())
}

fn vector<'a>(words: impl Iterator<Item = &'a [u8]>) -> Vector {
    let mut vector = [0; 3];
    for (component, word) in vector.iter_mut().zip(words) {
        *component = number(word);
    }
    vector
}

impl Geometry {
    fn read_corner(&mut self, word: &[u8]) {
        let mut parts = word.split(|byte| *byte == b'/');
        self.corners
            .push(index(parts.next().unwrap_or(b"")) as u32 - 1);
        if let Some(part) = parts.next() {
            self.corner_textures.push(self.textures[index(part) - 1]);
        }
        if let Some(part) = parts.next() {
            self.corner_normals.push(self.normals[index(part) - 1]);
        }
    }

    fn read_line(&mut self, line: &[u8]) {
        let mut words = words(line);
        match words.next() {
            Some(b"v") => self.places.push(vector(words)),
            Some(b"vt") => self.textures.push(vector(words)),
            Some(b"vn") => self.normals.push(vector(words)),
            Some(b"f") => {
                let before = self.corners.len();
                for word in words {
                    self.read_corner(word);
                }
                self.sizes.push((self.corners.len() - before) as u32);
            }
            _ => {}
        }
    }

    fn write(&self, text: &mut Vec<u8>) {
        write_vectors(text, b"v", &self.places);
        write_vectors(text, b"vt", &self.corner_textures);
        write_vectors(text, b"vn", &self.corner_normals);
        let mut vertex = 0;
        for size in &self.sizes {
            text.push(b'f');
            for _ in 0..*size {
                self.write_corner(text, vertex);
                vertex += 1;
            }
            text.push(b'\n');
        }
    }

    fn write_corner(&self, text: &mut Vec<u8>, vertex: usize) {
        text.push(b' ');
        write_whole(text, u64::from(self.corners[vertex]) + 1);
        if !self.corner_textures.is_empty() {
            text.push(b'/');
            write_whole(text, vertex as u64 + 1);
        }
        if !self.corner_normals.is_empty() {
            text.push(b'/');
            write_whole(text, vertex as u64 + 1);
        }
    }
}

fn write_whole(text: &mut Vec<u8>, mut whole: u64) {
    let mut digits = [0; 20];
    let mut at = digits.len();
    loop {
        at -= 1;
        digits[at] = b'0' + (whole % 10) as u8;
        whole /= 10;
        if whole == 0 {
            break;
        }
    }
    text.extend_from_slice(&digits[at..]);
}

fn write_number(text: &mut Vec<u8>, millionths: i64) {
    if millionths < 0 {
        text.push(b'-');
    }
    let size = millionths.unsigned_abs();
    write_whole(text, size / UNIT);
    let mut rest = size % UNIT;
    if rest == 0 {
        return;
    }
    let mut fraction = [b'0'; 6];
    for place in fraction.iter_mut().rev() {
        *place += (rest % 10) as u8;
        rest /= 10;
    }
    let len = fraction.iter().rposition(|byte| *byte != b'0').unwrap_or(0) + 1;
    text.push(b'.');
    text.extend_from_slice(&fraction[..len]);
}

fn write_vectors(text: &mut Vec<u8>, keyword: &[u8], vectors: &[Vector]) {
    for vector in vectors {
        text.extend_from_slice(keyword);
        for component in vector {
            text.push(b' ');
            write_number(text, *component);
        }
        text.push(b'\n');
    }
}

fn main() -> io::Result<()> {
    let Some(name) = std::env::args().nth(1) else {
        return Ok(());
    };
    let bytes = fs::read(name)?;
    let mut geometry = Geometry::default();
    for line in bytes.split(|byte| *byte == b'\n') {
        geometry.read_line(line);
    }
    let mut text = Vec::new();
    geometry.write(&mut text);
    io::stdout().write_all(&text)
}
