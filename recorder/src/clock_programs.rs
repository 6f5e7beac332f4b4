//! The programs that set the system's clock, asked by their own tools: `chronyc`, `ntpq`, `pmc`.
use std::io::Read;
use std::path::Path;
use std::process::{Command, Stdio};
use std::time::{Duration, Instant};

/// Those that can be asked, in the order in which they are.
pub const PROGRAMS: [&str; 3] = ["chrony", "ntpd", "ptp4l"];

/// How long a tool may take.
const PATIENCE: Duration = Duration::from_secs(2);
/// A tool says no more than this.
const MOST: u64 = 1 << 16;

/// What a program says of the clock.
#[derive(Clone, Debug, PartialEq, Eq)]
pub struct Program {
    pub name: &'static str,
    pub is_synchronised: bool,
    /// its clock is a card's, and the system's only by way of another program
    pub is_of_card: bool,
    /// what it is set by
    pub source: String,
    /// the most that it is off, in nanoseconds
    pub error: i128,
}

impl Program {
    pub fn text(&self) -> String {
        format!("{}, set by {}", self.name, self.source)
    }
}

/// Asks these programs. The first that is in sync is taken, else the first that answers at all.
pub fn ask(names: &[String], folder: &Path) -> Option<Program> {
    let mut first = None;
    for name in names {
        let found = match name.as_str() {
            "chrony" => run("chronyc", &["-n", "-c", "tracking"]).as_deref().and_then(chrony),
            "ntpd" => run("ntpq", &["-n", "-c", "rv 0 leap,stratum,refid,offset,rootdelay,rootdisp"]).as_deref().and_then(ntpd),
            "ptp4l" => ptp4l_of(folder),
            _ => None,
        };
        match found {
            Some(it) if it.is_synchronised => return Some(it),
            Some(it) => first = first.or(Some(it)),
            None => (),
        }
    }
    first
}

/// What a tool prints. None where it is not there, fails, or takes too long.
fn run(tool: &str, words: &[&str]) -> Option<String> {
    let mut child = Command::new(tool)
        .args(words)
        .env("LC_ALL", "C")
        .stdin(Stdio::null())
        .stdout(Stdio::piped())
        .stderr(Stdio::null())
        .spawn()
        .ok()?;
    let start = Instant::now();
    // (what it says fits the pipe, so that it can end before that is read)
    let status = loop {
        match child.try_wait() {
            Ok(Some(it)) => break Some(it),
            Ok(None) if start.elapsed() < PATIENCE => std::thread::sleep(Duration::from_millis(20)),
            _ => {
                let _ = child.kill();
                let _ = child.wait();
                break None;
            }
        }
    };
    let mut text = String::new();
    status.filter(std::process::ExitStatus::success)?;
    child.stdout.take()?.take(MOST).read_to_string(&mut text).ok()?;
    Some(text)
}

/// Seconds, or thousandths of one, as a tool prints them, in nanoseconds.
fn time(text: &str, unit: f64) -> Option<i128> {
    text.trim().parse::<f64>().ok().filter(|it| it.is_finite()).map(|it| (it.abs() * unit).ceil() as i128)
}

/// A name as an answer's line takes it.
fn name(text: &str) -> String {
    text.chars().filter(|it| !it.is_control()).take(80).collect()
}

/// Of `chronyc -c tracking`: 14 values in seconds, with commas between them. What it is off is what is not corrected yet, the root
/// dispersion, and half of the root delay.
fn chrony(text: &str) -> Option<Program> {
    let parts: Vec<&str> = text.trim().split(',').collect();
    let [id, by, _, _, offset, _, _, _, _, _, delay, dispersion, _, leap] = parts.as_slice() else { return None };
    let error = time(offset, 1e9)? + time(dispersion, 1e9)? + time(delay, 1e9)? / 2;
    let is_synchronised = *leap != "Not synchronised";
    Some(Program { name: "chrony", is_synchronised, is_of_card: false, source: name(if by.is_empty() { id } else { by }), error })
}

/// Of `ntpq -c rv`: `leap=00, offset=0.123, ..`, in thousandths of a second.
fn ntpd(text: &str) -> Option<Program> {
    let of = |key: &str| {
        text.split([',', '\n']).find_map(|it| it.trim().strip_prefix(key)?.strip_prefix('=')).map(|it| it.trim().trim_matches('"'))
    };
    let error = time(of("offset")?, 1e6)? + time(of("rootdisp")?, 1e6)? + time(of("rootdelay")?, 1e6)? / 2;
    let is_synchronised = !matches!(of("leap")?, "11" | "3") && of("stratum").is_none_or(|it| it != "16");
    Some(Program { name: "ntpd", is_synchronised, is_of_card: false, source: name(of("refid").unwrap_or("?")), error })
}

/// Asks at the socket that anyone may read, and at the one of older releases. The answer comes to a socket beside the service's own.
fn ptp4l_of(folder: &Path) -> Option<Program> {
    let here = folder.join(format!("pmc-{}", std::process::id()));
    let here = here.to_str()?;
    let found = ["/var/run/ptp4lro", "/var/run/ptp4l"].into_iter().filter(|it| Path::new(it).exists()).find_map(|there| {
        run("pmc", &["-u", "-b", "0", "-i", here, "-s", there, "GET TIME_STATUS_NP", "GET PORT_DATA_SET"])
            .as_deref()
            .and_then(ptp4l)
    });
    let _ = std::fs::remove_file(here);
    found
}

/// Of `pmc`: a key and a value a line. A port that follows a grandmaster is a slave.
fn ptp4l(text: &str) -> Option<Program> {
    let of =
        |key: &str| text.lines().find_map(|it| it.trim().strip_prefix(key).filter(|it| it.starts_with([' ', '\t']))).map(str::trim);
    let error = time(of("master_offset")?, 1.0)?;
    let is_synchronised = of("gmPresent")? == "true" && of("portState").is_none_or(|it| it == "SLAVE");
    Some(Program { name: "ptp4l", is_synchronised, is_of_card: true, source: name(of("gmIdentity").unwrap_or("?")), error })
}

#[cfg(test)]
mod tests {
    use super::*;

    #[test]
    fn what_chrony_says() {
        let text = "C0A80101,192.168.1.1,2,1764555600.1,0.000001000,0.0,0.0,-3.2,0.0,0.1,0.000400000,0.000050000,64.2,Normal\n";
        let it = chrony(text).unwrap();
        assert_eq!((it.is_synchronised, it.source.as_str(), it.error), (true, "192.168.1.1", 251_000));
        // as chronyd 4.3 answers that is its own source
        let text = "7F7F0101,,8,1796096476.337449623,0.0,0.0,0.0,0.000,0.000,0.000,0.000000000,0.000000000,0.0,Normal\n";
        assert_eq!(chrony(text).map(|it| (it.is_synchronised, it.source, it.error)), Some((true, "7F7F0101".to_string(), 0)));
        let it = chrony("00000000,,0,0.0,0.0,0.0,0.0,0.0,0.0,0.0,1.0,1.0,0.0,Not synchronised").unwrap();
        assert!(!it.is_synchronised);
        assert_eq!((chrony(""), chrony("506 Cannot talk to daemon"), chrony(&"x,".repeat(13))), (None, None, None));
    }

    #[test]
    fn what_ntpd_says() {
        let text = "leap=00, stratum=2, refid=10.0.0.9,\noffset=-0.25, rootdelay=1.0, rootdisp=2.5\n";
        let it = ntpd(text).unwrap();
        assert_eq!((it.is_synchronised, it.source.as_str(), it.error), (true, "10.0.0.9", 3_250_000));
        assert!(!ntpd(&text.replace("leap=00", "leap=11")).unwrap().is_synchronised);
        assert!(!ntpd(&text.replace("stratum=2", "stratum=16")).unwrap().is_synchronised);
        assert_eq!((ntpd(""), ntpd("ntpq: read: Connection refused")), (None, None));
    }

    #[test]
    fn what_ptp4l_says() {
        let text = "sending: GET TIME_STATUS_NP\n\t0-0 seq 0 RESPONSE MANAGEMENT TIME_STATUS_NP \n\t\tmaster_offset              -812\n\
                    \t\tgmPresent                  true\n\t\tgmIdentity                 001122.fffe.334455\n\t\tportState               SLAVE\n";
        let it = ptp4l(text).unwrap();
        assert_eq!((it.is_synchronised, it.is_of_card, it.source.as_str(), it.error), (true, true, "001122.fffe.334455", 812));
        assert!(!ptp4l(&text.replace("SLAVE", "LISTENING")).unwrap().is_synchronised);
        assert!(!ptp4l(&text.replace("true", "false")).unwrap().is_synchronised);
        assert_eq!(ptp4l("sending: GET TIME_STATUS_NP\n"), None);
    }

    #[test]
    fn a_tool_that_hangs_or_fails_says_nothing() {
        assert_eq!(run("sh", &["-c", "echo yes"]).as_deref(), Some("yes\n"));
        assert_eq!((run("sh", &["-c", "echo yes; exit 1"]), run("no-such-tool", &[])), (None, None));
        let start = Instant::now();
        assert_eq!(run("sleep", &["100"]), None);
        assert!(start.elapsed() < Duration::from_mins(1));
    }
}
