//! More words of chapter 6: what a chapter 10 recorder is asked for beside recording. `docs/RECORDER.md` says of each how far it goes.
use std::fmt::Write;

use crate::clock;
use crate::control::Reply;
use crate::dates::Dates;
use crate::info;
use crate::keeps::Current;
use crate::medium::printed;
use crate::notes::Line;
use crate::owner::{Owner, State, Trouble};
use crate::words::{Answer, No};

/// The release of the standard that the setup record names: 12 is IRIG 106-17.
const RELEASE: u32 = 12;
/// Bits of `.HEALTH` that are critical, where nobody said otherwise: a full medium and a disk that failed.
pub const CRITICAL: u32 = 0xc000_0000;
/// The largest number of an event.
const MOST: u16 = 4095;
/// The longest text of an event, or of a note.
const LONGEST: usize = 200;

/// An event of the file that is recorded.
pub struct Noted {
    number: u16,
    count: u64,
    civil: String,
    text: String,
}

/// Whether a text of the crew can be taken: it is short, and one line.
fn is_text(text: &str) -> bool {
    text.len() <= LONGEST && !text.contains(char::is_control)
}

impl Noted {
    /// Number, time and text.
    pub fn shown(&self) -> (u16, String, String) {
        (self.number, self.civil.clone(), self.text.clone())
    }
}

impl Owner {
    /// `.EVENT`: lists the events of the file, or records one.
    pub(crate) fn event(&mut self, words: &[&str]) -> Answer {
        let Some((number, text)) = words.split_first() else {
            let line = |mut out: String, it: &Noted| {
                let _ = writeln!(out, "{} {} {} {}", it.number, it.civil, it.count, it.text);
                out
            };
            return Ok(Reply::Text(self.file.iter().flat_map(Current::events).fold(String::new(), line)));
        };
        let Some(number) = number.parse::<u16>().ok().filter(|it| *it <= MOST) else {
            return Err(No::Parameter(format!("{number} is no event: give 0 to 4095, and a text if you like")).into());
        };
        let text = text.join(" ");
        if !is_text(&text) {
            return Err(
                No::Parameter(format!("the text of an event has at most {LONGEST} bytes, and no control characters")).into()
            );
        }
        self.begin_file()?;
        match self.state {
            State::Recording => self.note_event(number)?,
            State::Full => {
                return Err(No::Full(
                    "there is no room for another file, and the event is in none; copy the files, then give .ERASE and .RECORD"
                        .to_string(),
                )
                .into());
            }
            _ => return Err(No::Mode("no file is recorded; give .RECORD first".to_string()).into()),
        }
        if !text.is_empty() {
            info!("event {number}: {text}");
        }
        if let Some(it) = self.file.as_mut().and_then(Current::last_event) {
            it.text = text;
        }
        Ok(Reply::Text(String::new()))
    }

    /// `.NOTE`: a text of the crew for the log channel, and for the log.
    pub(crate) fn note_of_crew(&mut self, text: &str, by: &str) -> Result<String, No> {
        if text.is_empty() || !is_text(text) {
            return Err(No::Parameter(format!("give a text of at most {LONGEST} bytes, without control characters")));
        }
        if self.notes.is_none() {
            return Err(No::Mode("there is no log channel: the settings leave it out (log), or have 64 channels".to_string()));
        }
        info!("note: {text}");
        self.log(Line::new("note").with("by", by).with("text", text));
        Ok(String::new())
    }

    /// Keeps an event for the list.
    pub(crate) fn list_event(&mut self, number: u16, count: u64) {
        let civil = clock::text(&clock::civil(clock::at(clock::now())));
        if let Some(file) = &mut self.file {
            file.add_event(Noted { number, count, civil, text: String::new() });
        }
    }

    /// `.FILES`: with the dates and times that the directory has.
    pub(crate) fn files(&mut self) -> Result<String, Trouble> {
        let files = self.recorder()?.files()?;
        let dates = self.recorder.as_ref().map(|it| Dates::read(it, files.len())).unwrap_or_default();
        let volume = if self.settings.media.len() > 1 { format!(" {}", self.medium.volume) } else { String::new() };
        let mut text = String::new();
        for (number, file) in files.iter().enumerate() {
            let (first, name) = (self.medium.first_block(&files[..number]), printed(&file.name));
            let state = if file.closed { "closed" } else { "open" };
            let _ = writeln!(text, "{} {name} {first} {} {state} {}{volume}", number + 1, file.size, dates.line(number));
        }
        Ok(text)
    }

    /// `.SETUP`: there is one setup, that of the settings.
    pub(crate) fn setup_word(words: &[&str]) -> Result<String, No> {
        match words {
            [] | ["0"] => Ok("SETUP 0\n".to_string()),
            _ => Err(No::Parameter("there is one setup, 0: that of the settings".to_string())),
        }
    }

    /// `.TMATS`: the setup text.
    pub(crate) fn tmats(&self, words: &[&str]) -> Result<String, No> {
        let upper: Vec<String> = words.iter().map(|it| it.to_ascii_uppercase()).collect();
        match upper.iter().map(String::as_str).collect::<Vec<_>>().as_slice() {
            ["READ"] | ["READ", "0"] => {
                let text = String::from_utf8_lossy(&self.settings.setup).into_owned();
                // (a line of a star alone would end the answer)
                let line = |it: &str| format!("{}{it}\n", if it == "*" { " " } else { "" });
                Ok(text.lines().map(|it| it.trim_end_matches('\r')).map(line).collect())
            }
            ["VERSION"] => Ok(format!("{RELEASE}\n")),
            ["WRITE" | "SAVE" | "GET" | "DELETE", ..] => Err(No::Mode(
                "the setup text is that of the settings: change `setup` there, and start the service anew".to_string(),
            )),
            _ => Err(No::Parameter("give .TMATS READ or .TMATS VERSION".to_string())),
        }
    }

    /// `.MEDIA`: bytes of a block, blocks used, blocks left.
    pub(crate) fn media(&mut self) -> Result<String, Trouble> {
        let files = self.recorder()?.files()?;
        let used = self.medium.first_block(&files).min(self.settings.blocks as u64);
        Ok(format!("MEDIA 512 {used} {}\n{}", self.settings.blocks as u64 - used, self.media_lines().concat()))
    }

    /// `.DISMOUNT`: the medium can be taken away then.
    pub(crate) fn dismount(&mut self) -> Answer {
        if matches!(self.state, State::Ready | State::Recording) {
            return Err(No::Mode("it is recording; give .STOP first".to_string()).into());
        }
        self.medium.keep(false);
        self.wish.wants = false;
        self.wish.waits = None;
        self.end_readers("the medium was dismounted");
        self.recorder()?.dismount()?;
        self.settle()?;
        self.recorder = None;
        self.row.let_go();
        self.file = None;
        self.state = State::Dismounted;
        self.failures.why = "the medium is dismounted; .MOUNT takes it up again".to_string();
        info!("the medium was dismounted by a command, and can be taken away");
        Ok(Reply::Text(String::new()))
    }

    /// `.MOUNT`: takes a medium up again, or another one at the same path.
    pub(crate) fn mount(&mut self) -> Result<Reply, No> {
        if self.recorder.is_some() {
            return Err(No::Mode("a medium is mounted already; .DISMOUNT gives it up".to_string()));
        }
        self.open_again().map_err(|it| No::NoMedia(it.text().to_string()))?;
        self.failures.why.clear();
        info!("the medium was mounted by a command");
        Ok(Reply::Text(String::new()))
    }

    /// `.CRITICAL`: which bits of `.HEALTH` are critical warnings, or sets that.
    pub(crate) fn critical(&mut self, words: &[&str]) -> Result<String, No> {
        let names: Vec<String> =
            std::iter::once("RECORDER".to_string()).chain(self.listed().iter().map(|it| it.channel.name.clone())).collect();
        let feature = |word: &str| {
            let found = word.parse::<usize>().ok().filter(|it| *it < names.len());
            found.ok_or_else(|| No::Parameter(format!("there is no feature {word}; .HEALTH lists them")))
        };
        let line = |at: usize, masks: &[u32]| format!("{at} {:08X} {}\n", masks[at], names[at]);
        match words {
            [] => Ok((0..names.len()).map(|at| line(at, &self.critical)).collect()),
            [at] => feature(at).map(|at| line(at, &self.critical)),
            [at, mask] => {
                let at = feature(at)?;
                let mask = u32::from_str_radix(mask.trim_start_matches("0x"), 16)
                    .map_err(|_| No::Parameter(format!("{mask} is no mask: give up to eight hex digits")))?;
                self.critical[at] = mask;
                Ok(line(at, &self.critical))
            }
            _ => Err(No::Parameter("give a feature and a mask, a feature, or nothing".to_string())),
        }
    }

    /// `.VERSION`: of the service, and of the library below it.
    pub(crate) fn version() -> String {
        let it = r10::version();
        let library = format!("{}.{}.{}{}", it / 10_000, it / 100 % 100, it % 100, crate::NOT_PROVED);
        format!("VERSION r10d {}\nVERSION libr10 {library}\n", crate::VERSION)
    }

    /// `.IRIG106`: the release that the setup record names.
    pub(crate) fn irig106() -> String {
        format!("IRIG106 {RELEASE}\n")
    }
}
