//! A setup text (TMATS, chapter 9) out of the settings, so that a file describes itself where no text is given. `ch10 tmats` writes
//! the same of the same settings.
use std::fmt::Write;

use crate::kinds::Kind;

/// What a channel is in a setup text: its data type, the name of its format and the format, and whether it is a bus or a stream of
/// messages.
struct Described {
    data_type: &'static str,
    format_name: &'static str,
    format: u8,
    group: Option<(char, &'static str)>,
}

fn described(kind: Kind) -> Described {
    let (data_type, format_name, format, group) = match kind {
        Kind::Uart => ("UARTIN", "UTF", 0, Some(('S', ""))),
        Kind::Bus1553 => ("1553IN", "BTF", 1, Some(('B', "1553"))),
        Kind::Arinc => ("429IN", "ABTF", 0, Some(('B', "A429"))),
        Kind::Discrete => ("DISIN", "DTF", 1, None),
        Kind::Message => ("MSGIN", "MTF", 0, Some(('S', ""))),
    };
    Described { data_type, format_name, format, group }
}

/// A name as a value of a setup text has it: without the marks that end one.
fn value(name: &str) -> String {
    name.chars().map(|it| if ";:\r\n".contains(it) || it.is_control() { '_' } else { it }).collect()
}

/// The text for a volume, the channel of its times, and channels: number, kind and, where one was given, name.
pub fn of(volume: &str, time: u64, channels: &[(u64, Kind, Option<&str>)]) -> String {
    let (mut out, mut links) = (String::new(), String::new());
    let line = |out: &mut String, key: &str, it: &dyn std::fmt::Display| _ = write!(out, "{key}:{it};\r\n");
    line(&mut out, "G\\PN", &volume);
    line(&mut out, "G\\106", &17);
    line(&mut out, "G\\DSI\\N", &1);
    line(&mut out, "G\\DSI-1", &volume);
    line(&mut out, "G\\DST-1", &"STO");
    line(&mut out, "R-1\\ID", &volume);
    line(&mut out, "R-1\\TC1", &"SSR");
    line(&mut out, "R-1\\N", &(1 + channels.len()));
    line(&mut out, "R-1\\EV\\E", &"T");
    line(&mut out, "R-1\\IDX\\E", &"T");
    let track = |out: &mut String, number: usize, id: u64, name: &str, data_type: &str, format_name: &str, format: u8| {
        line(out, &format!("R-1\\TK1-{number}"), &id);
        line(out, &format!("R-1\\CHE-{number}"), &"T");
        line(out, &format!("R-1\\DSI-{number}"), &name);
        line(out, &format!("R-1\\CDT-{number}"), &data_type);
        line(out, &format!("R-1\\{format_name}-{number}"), &format);
    };
    track(&mut out, 1, time, "TIME", "TIMEIN", "TTF", 1);
    let (mut buses, mut streams) = (0, 0);
    for (number, (id, kind, name)) in (2..).zip(channels) {
        let it = described(*kind);
        let own = format!("{}-{id}", kind.name().to_ascii_uppercase());
        let name = name.map_or(own, value);
        track(&mut out, number, *id, &name, it.data_type, it.format_name, it.format);
        let Some((group, bus_type)) = it.group else { continue };
        line(&mut out, &format!("R-1\\CDLN-{number}"), &name);
        let count = if group == 'B' { &mut buses } else { &mut streams };
        *count += 1;
        let group_name = format!("{group}-{count}");
        line(&mut links, &format!("{group_name}\\DLN"), &name);
        if group == 'S' {
            line(&mut links, &format!("{group_name}\\NS\\N"), &1);
            line(&mut links, &format!("{group_name}\\SNA-1"), &name);
        } else {
            let bus = if *kind == Kind::Arinc { format!("{name}-0") } else { name };
            line(&mut links, &format!("{group_name}\\NBS\\N"), &1);
            line(&mut links, &format!("{group_name}\\BID-1"), &0);
            line(&mut links, &format!("{group_name}\\BNA-1"), &bus);
            line(&mut links, &format!("{group_name}\\BT-1"), &bus_type);
        }
    }
    out + &links
}

#[cfg(test)]
mod tests {
    use super::*;

    #[test]
    fn each_channel_is_described() {
        let channels: Vec<_> = (10..).zip(Kind::ALL).map(|(id, kind)| (id, kind, (id == 11).then_some("NAV;1"))).collect();
        let text = of("VOL", 1, &channels);
        assert!(text.starts_with("G\\PN:VOL;\r\nG\\106:17;\r\n") && text.ends_with(";\r\n"));
        for wanted in [
            "R-1\\N:6;",
            "R-1\\TK1-1:1;",
            "R-1\\CDT-1:TIMEIN;",
            "R-1\\DSI-3:NAV_1;",
            "R-1\\TK1-6:14;",
            "R-1\\CDLN-4:ARINC-12;",
            "B-1\\DLN:NAV_1;",
            "B-2\\BNA-1:ARINC-12-0;",
            "S-2\\SNA-1:MESSAGE-14;",
        ] {
            assert!(text.lines().any(|it| it == wanted), "{wanted} in\n{text}");
        }
    }
}
