//! `r10ctl`: asks and controls a recorder that `r10d` runs. See docs/RECORDER.md.
#![forbid(unsafe_code)]
use std::fmt::Write as _;
use std::io::{self, IsTerminal, Write};
use std::path::{Path, PathBuf};
use std::process::ExitCode;
use std::time::{Duration, Instant};

use clap::Parser;
use r10_recorder::client::{Client, Place, Why};
use r10_recorder::group::{self, Member};
use r10_recorder::kinds::Kind;
use r10_recorder::words::{PATIENCE, WORDS};
use serde_json::{Value, json};

#[derive(Parser)]
#[command(
    name = "r10ctl",
    version = r10_recorder::VERSION,
    about = "Asks and controls a recorder: r10ctl status, record FLT1, watch, follow 5.",
    after_help = words_in_lines()
)]
#[command(disable_help_subcommand = true)]
struct Given {
    /// The recorder's socket
    #[arg(long, env = "R10_SOCKET", default_value = "/run/r10/control")]
    socket: PathBuf,
    /// An address and a port, for a recorder that listens on TCP: in place of the socket
    #[arg(long)]
    tcp: Option<String>,
    /// A file with the token that a change over TCP wants
    #[arg(long, env = "R10_TOKEN_FILE")]
    token: Option<PathBuf>,
    /// A file that names the recorders of a group: the word goes to all of them at once
    #[arg(long, conflicts_with_all = ["tcp", "token"])]
    all: Option<PathBuf>,
    /// Answers in JSON, one value a line
    #[arg(long)]
    json: bool,
    /// One of the words below, and what follows it
    #[arg(required = true)]
    words: Vec<String>,
}

/// The words, as the recorder lists them, and the one that is this program's.
fn words_in_lines() -> String {
    let mut out = "Words:\n".to_string();
    let watch = ("watch", "", "draws rates, losses, free room and last messages once a second");
    let check =
        ("check", "[SECONDS]", "tries all before a flight, as .BIT does, and draws a table; status 1 where something is not well");
    for (word, more, text) in WORDS.into_iter().chain([watch, check]) {
        let head = format!("{} {more}", word.trim_start_matches('.').to_ascii_lowercase());
        let _ = writeln!(out, "  {:40}  {text}", head.trim_end());
    }
    out
}

fn main() -> ExitCode {
    let words = Given::parse();
    match run(&words) {
        Ok(()) => ExitCode::SUCCESS,
        Err(why) => {
            let line = format!("{}\n", json!({ "error": why.to_string(), "number": why.number() }));
            if !words.json || print(&line).is_err() {
                // (where even this cannot be written the status says it)
                let _ = writeln!(io::stderr(), "r10ctl: {why}");
            }
            ExitCode::FAILURE
        }
    }
}

/// The text of a file with a token.
fn token(path: &Path) -> Result<String, Why> {
    let text = std::fs::read_to_string(path).map_err(|it| Why::Ended(format!("the token {}: {it}", path.display())))?;
    Ok(text.trim().to_string())
}

fn connect(words: &Given) -> Result<Client, Why> {
    let place = words.tcp.clone().map_or_else(|| Place::Socket(words.socket.clone()), Place::Tcp);
    let token = words.token.as_deref().map(token).transpose()?;
    Client::connect(&place, token.as_deref(), PATIENCE)
}

/// Gives a word to all recorders of a group at once: each is connected first, and then all get it. It ends well where each did it.
fn all(path: &Path, word: &str, command: &str, as_json: bool) -> Result<(), Why> {
    if matches!(word, "watch" | "follow" | "replay") {
        return Err(Why::Ended(format!("{word} is for one recorder; the page of one that has `group` shows all of a group")));
    }
    let members = group::read(path)?;
    let mut failed = Vec::new();
    for (Member { name, .. }, done) in members.iter().zip(group::ask_all(&members, command, PATIENCE)) {
        match done {
            Ok(lines) if as_json => {
                let values: Vec<Value> = lines.iter().map(|it| of_line(word, it)).collect();
                print(&format!("{}\n", json!({ "recorder": name, "answer": values })))?;
            }
            Ok(lines) if lines.is_empty() => print(&format!("{name}: done\n"))?,
            Ok(lines) => lines.iter().try_for_each(|it| print(&format!("{name}: {it}\n")))?,
            Err(why) => {
                if as_json {
                    print(&format!("{}\n", json!({ "recorder": name, "error": why.to_string(), "number": why.number() })))?;
                } else {
                    let _ = writeln!(io::stderr(), "r10ctl: {name}: {why}");
                }
                failed.push(name.as_str());
            }
        }
    }
    if failed.is_empty() {
        return Ok(());
    }
    Err(Why::Ended(format!("{} of {} recorders did not do it: {}", failed.len(), members.len(), failed.join(", "))))
}

/// How long channels are waited for before a flight, unless the word says so.
const HEARD: u64 = 3;

/// Tries a recorder before a flight, and draws a table: what is not well ends it with status 1. Each channel with an input has to be
/// heard within so many seconds.
fn check(recorder: &mut Client, rest: &str, as_json: bool) -> Result<(), Why> {
    let wrong = || Why::Ended(format!("{rest:?} is no time: give seconds, 1 to 3600, or nothing for {HEARD}"));
    let seconds = if rest.is_empty() { Some(HEARD) } else { rest.parse().ok().filter(|it| (1..=3600).contains(it)) };
    let seconds = seconds.ok_or_else(wrong)?;
    let came = |recorder: &mut Client| -> Result<Vec<(u64, bool, u64)>, Why> {
        let lines = recorder.ask(".FIGURES")?;
        let value: Value =
            serde_json::from_str(lines.first().map_or("", String::as_str)).map_err(|it| Why::Ended(it.to_string()))?;
        let of = |it: &Value| (it["id"].as_u64().unwrap_or(0), it["input"] != "", it["came"].as_u64().unwrap_or(0));
        Ok(value["channels"].as_array().map_or(&[][..], Vec::as_slice).iter().map(of).collect())
    };
    let (before, end) = (came(recorder)?, Instant::now() + Duration::from_secs(seconds));
    let silent = loop {
        let now = came(recorder)?;
        let silent: Vec<u64> = before.iter().zip(&now).filter(|(old, new)| old.1 && old.2 == new.2).map(|it| it.0.0).collect();
        if silent.is_empty() || Instant::now() >= end {
            break silent;
        }
        std::thread::sleep(Duration::from_millis(100));
    };
    let (mut failed, mut text) = (0, String::new());
    for line in recorder.ask(".BIT")? {
        let parts: Vec<&str> = line.splitn(4, ' ').collect();
        let ["BIT", number, is @ ("ok" | "FAILED"), what] = parts.as_slice() else { continue };
        // what came in this time counts, and not what came before
        let name = what.split_once(": ").map_or("", |it| it.0);
        let id = name.strip_prefix("channel ").and_then(|it| it.split(' ').next()?.parse::<u64>().ok());
        let is_silent = id.is_some_and(|it| silent.contains(&it));
        let what = if is_silent {
            format!("{name}: nothing came within {seconds} s; look at its source, its cable and its input in the settings")
        } else {
            (*what).to_string()
        };
        let is_well = *is == "ok" && !is_silent;
        failed += usize::from(!is_well);
        if as_json {
            let number: u64 = number.parse().unwrap_or(0);
            let _ = writeln!(text, "{}", json!({ "test": number, "ok": is_well, "text": what }));
        } else {
            let _ = writeln!(text, "{:6} {what}", if is_well { "ok" } else { "WRONG" });
        }
    }
    print(&text)?;
    if failed == 0 { Ok(()) } else { Err(Why::Ended(format!("{failed} of what was tried is not well"))) }
}

fn run(words: &Given) -> Result<(), Why> {
    // a line is a command: so an end of a line in a word would be a second one
    if let Some(word) = words.words.iter().find(|it| it.contains(char::is_control)) {
        return Err(Why::Ended(format!("{word:?} is no word: it has a control character")));
    }
    let word = words.words[0].trim_start_matches('.').to_ascii_lowercase();
    let rest = words.words[1..].join(" ");
    let command = format!(".{} {rest}", word.to_ascii_uppercase());
    if let Some(path) = &words.all {
        return all(path, &word, command.trim(), words.json);
    }
    let mut recorder = connect(words)?;
    match word.as_str() {
        "check" => return check(&mut recorder, &rest, words.json),
        "watch" => return watch(&mut recorder, words.json),
        "follow" | "replay" => return stream(&mut recorder, command.trim(), words.json),
        _ => (),
    }
    let lines = recorder.ask(command.trim())?;
    let mut out = String::new();
    if words.json {
        for line in &lines {
            let _ = writeln!(out, "{}", of_line(&word, line));
        }
    } else if word == "status" {
        lines.iter().for_each(|it| out += &status(it));
    } else {
        lines.iter().for_each(|it| out += &format!("{it}\n"));
    }
    Ok(print(&out)?)
}

/// Prints. Where nobody reads any more, that is the end.
fn print(text: &str) -> Result<(), String> {
    let mut out = io::stdout().lock();
    match out.write_all(text.as_bytes()).and_then(|()| out.flush()) {
        Err(error) if error.kind() == io::ErrorKind::BrokenPipe => std::process::exit(0),
        other => other.map_err(|it| format!("cannot print: {it}")),
    }
}

/// States by their numbers, as the standard has them.
const STATES: [(&str, &str); 6] =
    [("00", "FAIL"), ("01", "IDLE"), ("05", "RECORD"), ("06", "PLAY"), ("07", "RECORD & PLAY"), ("09", "BUSY")];

fn state_name(number: &str) -> &str {
    STATES.iter().find(|it| it.0 == number).map_or("?", |it| it.1)
}

fn status(line: &str) -> String {
    match line.split(' ').collect::<Vec<_>>().as_slice() {
        ["S", state, warnings, critical, used] => {
            format!("{line}\n{}, {warnings} warnings, {critical} critical ones, {used} of the medium used\n", state_name(state))
        }
        _ => format!("{line}\n"),
    }
}

/// A line of an answer as a value.
fn of_line(word: &str, line: &str) -> Value {
    let number = |it: &str| it.parse::<u64>().map_or(Value::Null, Value::from);
    let parts: Vec<&str> = line.split(' ').collect();
    match (word, parts.as_slice()) {
        ("status", ["S", state, warnings, critical, used]) => json!({
            "state": number(state), "name": state_name(state), "warnings": number(warnings), "critical": number(critical),
            "used_percent": number(used.trim_end_matches('%')),
        }),
        ("files", [file, name, block, bytes, state, date, begin, end, volume @ ..]) => {
            let mut it = json!({ "file": number(file), "name": name, "block": number(block), "bytes": number(bytes),
            "closed": *state == "closed", "date": date, "begin": begin, "end": end });
            if let [volume] = volume {
                it["volume"] = (*volume).into();
            }
            it
        }
        ("media" | "keep", ["MEDIUM", place, volume, state, ..]) if parts.len() > 4 => {
            json!({ "medium": number(place), "volume": volume, "state": state, "path": parts[4..].join(" ") })
        }
        ("media", ["MEDIA", size, used, left]) => {
            json!({ "block_bytes": number(size), "used_blocks": number(used), "left_blocks": number(left) })
        }
        ("event", [event, date, time, count, ..]) => json!({
            "event": number(event), "time": format!("{date} {time}"), "count": number(count), "text": parts[4..].join(" "),
        }),
        ("bit", ["BIT", test, is @ ("ok" | "FAILED"), ..]) => {
            json!({ "test": number(test), "ok": *is == "ok", "text": parts[3..].join(" ") })
        }
        ("critical", [feature, bits, ..]) => {
            json!({ "feature": number(feature), "mask": u32::from_str_radix(bits, 16).ok(), "text": parts[2..].join(" ") })
        }
        ("health", [feature, bits, ..]) => {
            json!({ "feature": number(feature), "bits": u32::from_str_radix(bits, 16).ok(), "text": parts[2..].join(" ") })
        }
        ("find", ["F", block, file, count]) => {
            json!({ "record_block": number(block), "file": number(file), "count": number(count) })
        }
        ("publish", [address, port, ..]) => json!({ "address": address, "port": number(port) }),
        ("medium", [.., blocks, directory]) if parts.len() > 2 => {
            json!({ "path": parts[..parts.len() - 2].join(" "), "blocks": number(blocks), "directory": number(directory) })
        }
        ("time", [key, ..]) => json!({ "key": key.to_ascii_lowercase(), "value": parts[1..].join(" ") }),
        ("figures", _) => serde_json::from_str(line).unwrap_or(Value::Null),
        _ => json!({ "text": line }),
    }
}

/// An entry's line as a value.
fn of_entry(line: &str) -> Value {
    let parts: Vec<&str> = line.split(' ').collect();
    let number = |it: &str| it.parse::<u64>().map_or(Value::Null, Value::from);
    match parts.as_slice() {
        ["entry", channel, count, gap, kind, rest @ ..] => {
            let mut it = json!({ "channel": number(channel), "count": number(count), "gap": gap, "kind": kind });
            let names = match *kind {
                "event" => &["number", "occurrence"][..],
                _ => Kind::of(kind).map_or(&[][..], Kind::keys),
            };
            if *kind == "time" {
                it["civil"] = rest.join(" ").into();
            }
            for (name, value) in names.iter().zip(rest) {
                // (an entry has a gap of its own, which tells of losses)
                let name = if *name == "gap" { "gap_times" } else { *name };
                it[name] = if *value == "-" { "".into() } else { (*value).into() };
            }
            it
        }
        _ => json!({ "text": line }),
    }
}

fn stream(recorder: &mut Client, command: &str, as_json: bool) -> Result<(), Why> {
    recorder.send(command)?;
    loop {
        let line = match recorder.line() {
            Ok(Some(line)) => line,
            Ok(None) => return Ok(()),
            // a channel may be silent for long
            Err(Why::Silent(_)) if command.starts_with(".FOLLOW") => continue,
            Err(why) => return Err(why),
        };
        if line.starts_with("E ") {
            return Err(Why::Refused(line));
        }
        print(&if as_json { format!("{}\n", of_entry(&line)) } else { format!("{line}\n") })?;
    }
}

/// Draws rates, losses, free room and last messages once a second.
fn watch(recorder: &mut Client, as_json: bool) -> Result<(), Why> {
    let mut last: Option<(Instant, Value)> = None;
    loop {
        let lines = recorder.ask(".FIGURES")?;
        let now = Instant::now();
        let figures: Value = serde_json::from_str(lines.first().map_or("", String::as_str))
            .map_err(|it| format!("the figures cannot be read: {it}; are r10d and r10ctl of one version?"))?;
        let before = last.as_ref().map(|(at, it)| (now.duration_since(*at).as_secs_f64(), it));
        let text = if as_json { format!("{figures}\n") } else { drawn(&figures, before) };
        let clear = if io::stdout().is_terminal() && !as_json { "\x1b[H\x1b[J" } else { "" };
        print(&format!("{clear}{text}"))?;
        last = Some((now, figures));
        std::thread::sleep(Duration::from_secs(1).saturating_sub(now.elapsed()));
    }
}

fn drawn(it: &Value, before: Option<(f64, &Value)>) -> String {
    let number = |value: &Value| value.as_u64().unwrap_or(0);
    let mib = |bytes: u64| format!("{:.1} MiB", bytes as f64 / 1_048_576.0);
    let file = match &it["file"] {
        Value::Null if it["state"] == "recording" => ", no file before the first message".to_string(),
        Value::Null => String::new(),
        file => {
            format!(", file {} {} of {}", number(&file["number"]), file["name"].as_str().unwrap_or(""), mib(number(&file["bytes"])))
        }
    };
    let medium = match &it["medium"] {
        row if number(&row["of"]) > 1 => {
            let volume = row["volume"].as_str().unwrap_or("");
            format!(", medium {volume}, {} of {}, {} more have no file", number(&row["number"]), row["of"], number(&row["left"]))
        }
        _ => String::new(),
    };
    let mut out = format!(
        "{}{file}{medium}; {} free of {}\n",
        it["state"].as_str().unwrap_or("?").to_uppercase(),
        mib(number(&it["free"])),
        mib(number(&it["medium_bytes"]))
    );
    let times = &it["durable_after_us"];
    let _ = writeln!(
        out,
        "durable after {:.1} ms (half), {:.1} ms (99 of 100); disk failures {}, clock steps {}, waiting {}, memory {}",
        number(&times["half"]) as f64 / 1e3,
        number(&times["of_100_99"]) as f64 / 1e3,
        number(&it["failures"]),
        number(&it["clock_steps"]),
        mib(number(&it["queued_bytes"])),
        mib(number(&it["memory_kib"]) << 10)
    );
    let clock = &it["clock"];
    let is = match clock["synchronised"].as_bool() {
        Some(true) => "in sync",
        Some(false) => "NOT IN SYNC",
        None => "not known to be in sync",
    };
    let error = clock["error_ns"].as_f64().map_or("error not known".to_string(), |it| format!("error at most {:.3} ms", it / 1e6));
    let pulse = match (clock["pps"].as_bool(), clock["pps_offset_ns"].as_f64()) {
        (Some(true), Some(it)) => format!(", pulse {:+.3} ms off", it / 1e6),
        (Some(_), _) => ", NO PULSE".to_string(),
        (None, _) => String::new(),
    };
    let _ = writeln!(
        out,
        "clock {is} ({}), {error}, steered by {:+.1} ppm{pulse}",
        clock["source"].as_str().unwrap_or("?"),
        clock["drift_ppm"].as_f64().unwrap_or(0.0)
    );
    if it["why"] != "" {
        let _ = writeln!(out, "last failure: {}", it["why"].as_str().unwrap_or(""));
    }
    let _ = writeln!(
        out,
        "\n{:>5} {:12} {:8} {:>10} {:>9} {:>12} {:>8} {:>8}  last message",
        "ID", "name", "kind", "messages/s", "KiB/s", "durable", "lost", "bad"
    );
    for (place, channel) in it["channels"].as_array().map_or(&[][..], Vec::as_slice).iter().enumerate() {
        let rate = |key: &str| {
            before.map_or(0.0, |(seconds, it)| {
                (number(&channel[key]).saturating_sub(number(&it["channels"][place][key]))) as f64 / seconds.max(0.001)
            })
        };
        let last = match (number(&channel["last_length"]), channel["last_bytes"].as_str().unwrap_or("")) {
            (_, "-") if number(&channel["last_count"]) == 0 => String::new(),
            (length, bytes) => format!("{length} bytes {bytes}{}", if length > 16 { ".." } else { "" }),
        };
        let _ = writeln!(
            out,
            "{:>5} {:12.12} {:8} {:>10.0} {:>9.1} {:>12} {:>8} {:>8}  {last}",
            number(&channel["id"]),
            channel["name"].as_str().unwrap_or(""),
            channel["kind"].as_str().unwrap_or(""),
            rate("came"),
            rate("bytes") / 1024.0,
            number(&channel["durable"]),
            number(&channel["lost"]),
            number(&channel["bad"]) + number(&channel["refused"])
        );
    }
    out + "\n"
}

#[cfg(test)]
mod tests {
    use super::*;

    #[test]
    fn lines_become_values() {
        assert_eq!(
            of_line("status", "S 05 1 0 12%"),
            json!({ "state": 5, "name": "RECORD", "warnings": 1, "critical": 0, "used_percent": 12 })
        );
        assert_eq!(
            of_line("files", "2 FLT1 66 704 closed 2024-02-29 12:34:56.78 -"),
            json!({ "file": 2, "name": "FLT1", "block": 66, "bytes": 704, "closed": true, "date": "2024-02-29",
            "begin": "12:34:56.78", "end": "-" })
        );
        assert_eq!(of_line("health", "0 80000001 a b"), json!({ "feature": 0, "bits": 0x8000_0001u32, "text": "a b" }));
        assert_eq!(
            of_line("media", "MEDIUM 2 V-002 next /a b/m"),
            json!({ "medium": 2, "volume": "V-002", "state": "next", "path": "/a b/m" })
        );
        let file = |more: &str| of_line("files", &format!("1 F 9 512 closed 2026-12-01 12:00:00.00 -{more}"));
        assert_eq!(
            (&file(" V-002")["volume"], &file("")["volume"], &file("")["end"]),
            (&json!("V-002"), &Value::Null, &json!("-"))
        );
        assert_eq!(of_line("medium", "/a b/m 99 2"), json!({ "path": "/a b/m", "blocks": 99, "directory": 2 }));
        assert_eq!(
            of_entry("entry 5 7 1+ message 0 1 3 -"),
            json!({ "channel": 5, "count": 7, "gap": "1+", "kind": "message", "data": "0", "format": "1", "sub": "3", "bytes": "" })
        );
        assert_eq!(of_entry("entry 1 7 0 time 2026-11-28 07:14:05.40")["civil"], "2026-11-28 07:14:05.40");
        assert_eq!(of_entry("skipped: x"), json!({ "text": "skipped: x" }));
    }

    #[test]
    fn a_picture_has_rates() {
        let figures = |came: u64| {
            json!({ "state": "recording", "file": null, "free": 1 << 20, "medium_bytes": 2 << 20, "why": "",
            "clock": { "synchronised": false, "source": "the kernel", "error_ns": null, "drift_ppm": -3.25 },
            "channels": [{ "id": 5, "name": "GPS", "kind": "message", "came": came, "bytes": 1024 * came, "durable": came,
            "lost": 3, "bad": 0, "refused": 0,
                           "last_count": 9, "last_length": 2, "last_bytes": "4142" }] })
        };
        let text = drawn(&figures(300), Some((2.0, &figures(100))));
        assert!(text.starts_with("RECORDING, no file before the first message; 1.0 MiB free of 2.0 MiB\n"), "{text}");
        assert!(text.contains("\nclock NOT IN SYNC (the kernel), error not known, steered by -3.2 ppm\n"), "{text}");
        assert!(
            text.contains("    5 GPS          message         100     100.0          300        3        0  2 bytes 4142\n"),
            "{text}"
        );
    }
}
