//! Dates and times of files, as the medium's directory has them: docs/FORMAT.md has its form.

/// The bytes of a block, of what stands before its entries, and of one of these.
const BLOCK: usize = 512;
const HEAD: usize = 64;
const ENTRY: usize = 112;
/// Entries of a block.
const ENTRIES: usize = 4;

/// Of each file, when it was begun and when it ended.
#[derive(Debug, Default)]
pub struct Dates {
    lines: Vec<String>,
}

impl Dates {
    /// Reads those of so many files. What cannot be read has none.
    pub fn read(recorder: &r10::Recorder, files: usize) -> Dates {
        let mut bytes = vec![0; BLOCK * files.div_ceil(ENTRIES)];
        match recorder.read_plainly(&mut bytes, BLOCK as u64) {
            Ok(()) => Dates { lines: (0..files).map(|it| of_entry(&bytes, it)).collect() },
            Err(_) => Dates::default(),
        }
    }

    /// Date, time of its begin, time of its end; each `-` where it is not known.
    pub fn line(&self, file: usize) -> &str {
        self.lines.get(file).map_or("- - -", String::as_str)
    }
}

impl Dates {
    /// Date and time of a file's begin: of two the later one sorts after the other.
    pub fn begin(&self, file: usize) -> String {
        let mut words = self.line(file).split(' ');
        format!("{} {}", words.next().unwrap_or("-"), words.next().unwrap_or("-"))
    }

    /// The time of a file's end.
    pub fn end(&self, file: usize) -> &str {
        self.line(file).split(' ').next_back().unwrap_or("-")
    }
}

fn of_entry(bytes: &[u8], file: usize) -> String {
    let at = BLOCK * (file / ENTRIES) + HEAD + ENTRY * (file % ENTRIES);
    let part = |from: usize| bytes.get(at + from..at + from + 8).filter(|it| it.iter().all(u8::is_ascii_digit));
    let text = |it: &[u8]| String::from_utf8_lossy(it).into_owned();
    let date = part(80).map(|it| format!("{}-{}-{}", text(&it[4..]), text(&it[2..4]), text(&it[..2])));
    let time = |it: &[u8]| format!("{}:{}:{}.{}", text(&it[..2]), text(&it[2..4]), text(&it[4..6]), text(&it[6..]));
    let or_none = |it: Option<String>| it.unwrap_or("-".to_string());
    format!("{} {} {}", or_none(date), or_none(part(88).map(time)), or_none(part(104).map(time)))
}

#[cfg(test)]
mod tests {
    use super::*;

    #[test]
    fn dates_are_those_of_the_directory() {
        let mut bytes = vec![0; 2 * BLOCK];
        let at = BLOCK + HEAD + ENTRY;
        bytes[at + 80..at + 96].copy_from_slice(b"2902202412345678");
        bytes[at + 104..at + 112].copy_from_slice(b"--------");
        assert_eq!(of_entry(&bytes, 5), "2024-02-29 12:34:56.78 -");
        bytes[at + 104..at + 112].copy_from_slice(b"13000001");
        assert_eq!(of_entry(&bytes, 5), "2024-02-29 12:34:56.78 13:00:00.01");
        assert_eq!(
            (of_entry(&bytes, 4).as_str(), of_entry(&bytes, 99).as_str(), Dates::default().line(0)),
            ("- - -", "- - -", "- - -")
        );
    }
}
