//! Metrics in the text form that Prometheus reads, at a port: made by the crate `prometheus` out of what the recorder's thread put up,
//! so that who asks does not wait for the disk.
use std::io;
use std::net::{IpAddr, SocketAddr};
use std::sync::Arc;

use prometheus::core::Collector;
use prometheus::{CounterVec, GaugeVec, Opts, Registry, TEXT_FORMAT, TextEncoder};
use serde_json::Value;

use crate::alarms::Kind;
use crate::standing::Shared;
use crate::{figures, http};

/// How many may ask at a time.
const MOST: usize = 16;

pub fn start(address: SocketAddr, peers: &[IpAddr], shared: Arc<Shared>) -> io::Result<()> {
    http::serve("metrics", address, peers, MOST, move |_, to| {
        let mut value = shared.value();
        value["memory_kib"] = figures::own_memory().into();
        match of(&value) {
            Ok(text) => http::answer(to, "200 OK", TEXT_FORMAT, "", &text),
            Err(error) => http::say(to, "500 Internal Server Error", &error.to_string()),
        }
    })
}

/// Whether a metric only grows.
#[derive(Clone, Copy, PartialEq, Eq)]
enum Is {
    Counter,
    Gauge,
}

const WHOLE: [(&str, &str, Is, &str); 9] = [
    ("files", "files", Is::Gauge, "Files on the medium."),
    ("free", "free_bytes", Is::Gauge, "Bytes of the media that no file has, or that are left for the one that is recorded."),
    ("commits", "commits_total", Is::Counter, "Commits."),
    ("failures", "disk_failures_total", Is::Counter, "Failures of the disk."),
    ("clock_steps", "clock_steps_total", Is::Counter, "Steps of the system's clock."),
    ("queued_bytes", "queued_bytes", Is::Gauge, "Bytes that wait between inputs and recorder."),
    ("datagrams_out", "datagrams_out_total", Is::Counter, "Datagrams sent live."),
    ("datagrams_dropped", "datagrams_dropped_total", Is::Counter, "Live datagrams that the system did not take."),
    ("memory_kib", "memory_kibibytes", Is::Gauge, "Memory of the service's own."),
];

const OF_CHANNELS: [(&str, &str, &str); 11] = [
    ("came", "messages_total", "Messages that came."),
    ("bytes", "bytes_total", "Bytes that came."),
    ("durable", "durable_total", "Messages that are durable."),
    ("lost", "lost_total", "Messages that were lost."),
    ("refused", "refused_total", "Messages that the recorder refused."),
    ("bad", "bad_total", "Lines and datagrams that are no message."),
    ("passed", "passed_total", "Messages that came while nothing was recorded."),
    ("moved", "moved_total", "Messages whose stamp was not later than the last one's."),
    ("unstamped", "unstamped_total", "Messages whose stamp was not taken."),
    ("others", "other_packets_total", "Packets of chapter 10 that are not recorded, as of another type."),
    ("late", "late_total", "Messages that came after a later one of their source."),
];

/// Registers a metric with its values, each with its labels.
fn add(
    registry: &Registry,
    name: &str,
    help: &str,
    is: Is,
    labels: &[&str],
    values: &[(Vec<String>, f64)],
) -> prometheus::Result<()> {
    let opts = Opts::new(format!("r10_{name}"), help);
    let of = |it: &[String]| it.to_vec();
    let metric: Box<dyn Collector> = match is {
        Is::Counter => {
            let metric = CounterVec::new(opts, labels)?;
            for (with, value) in values {
                let with = of(with);
                metric.get_metric_with_label_values(&with.iter().map(String::as_str).collect::<Vec<_>>())?.inc_by(*value);
            }
            Box::new(metric)
        }
        Is::Gauge => {
            let metric = GaugeVec::new(opts, labels)?;
            for (with, value) in values {
                let with = of(with);
                metric.get_metric_with_label_values(&with.iter().map(String::as_str).collect::<Vec<_>>())?.set(*value);
            }
            Box::new(metric)
        }
    };
    registry.register(metric)
}

/// The metrics of how the recorder stands.
fn of(value: &Value) -> prometheus::Result<String> {
    let registry = Registry::new();
    let one = |name: &str, help: &str, is: Is, value: f64| add(&registry, name, help, is, &[], &[(Vec::new(), value)]);
    let number = |it: &Value| it.as_f64().unwrap_or(0.0);
    one(
        "recording",
        "Whether it records, also where its file begins with the first message.",
        Is::Gauge,
        f64::from(u8::from(value["state"] == "recording")),
    )?;
    for (key, name, is, help) in WHOLE {
        one(name, help, is, number(&value[key]))?;
    }
    let medium = &value["medium"];
    let text = |key: &str| medium[key].as_str().unwrap_or("").to_string();
    let labels = vec![medium["number"].to_string(), text("volume"), text("path")];
    let help = "The medium in use: its number, volume and path.";
    add(&registry, "medium", help, Is::Gauge, &["number", "volume", "path"], &[(labels, 1.0)])?;
    one("media_left", "Media after the one in use that have no file.", Is::Gauge, number(&medium["left"]))?;
    one("commit_age_seconds", "How long ago the last commit was.", Is::Gauge, number(&value["commit_age_ms"]) / 1e3)?;
    one(
        "standing_age_seconds",
        "How old these figures are: the disk holds them up.",
        Is::Gauge,
        number(&value["standing_age_ms"]) / 1e3,
    )?;
    for (name, help, found) in of_clock(&value["clock"]) {
        if let Some(found) = found {
            one(name, help, Is::Gauge, found)?;
        }
    }
    let channels = value["channels"].as_array().map_or(&[][..], Vec::as_slice);
    let labels = |it: &Value| vec![it["id"].to_string(), it["name"].as_str().unwrap_or("").to_string()];
    for (key, name, help) in OF_CHANNELS {
        let values: Vec<_> = channels.iter().map(|it| (labels(it), number(&it[key]))).collect();
        add(&registry, name, help, Is::Counter, &["channel", "name"], &values)?;
    }
    let ages = channels.iter().filter_map(|it| Some((labels(it), it["last"]["age_ms"].as_f64()? / 1e3)));
    let help = "How long ago the last message came.";
    add(&registry, "last_message_age_seconds", help, Is::Gauge, &["channel", "name"], &ages.collect::<Vec<_>>())?;
    let mut causes = Vec::new();
    for it in channels {
        for (cause, count) in it["lost_by"].as_object().into_iter().flatten() {
            causes.push(([labels(it), vec![cause.clone()]].concat(), number(count)));
        }
    }
    let help = "Messages that were lost, by cause.";
    add(&registry, "lost_by_cause_total", help, Is::Counter, &["channel", "name", "cause"], &causes)?;
    let help = "Whether an alarm is on: of a channel, or of the recorder, which has none.";
    add(&registry, "alarm", help, Is::Gauge, &["alarm", "channel"], &alarms(value, channels))?;
    TextEncoder::new().encode_to_string(&registry.gather())
}

/// Each alarm that there can be, and whether it is on.
fn alarms(value: &Value, channels: &[Value]) -> Vec<(Vec<String>, f64)> {
    let on = value["alarms"].as_array().map_or(&[][..], Vec::as_slice);
    let mut values = Vec::new();
    for kind in Kind::ALL {
        let ids: Vec<Value> =
            if kind.is_of_channel() { channels.iter().map(|it| it["id"].clone()).collect() } else { vec![Value::Null] };
        for id in ids {
            let is_on = on.iter().any(|it| it["alarm"] == kind.name() && it["channel"] == id);
            let id = if id.is_null() { String::new() } else { id.to_string() };
            values.push((vec![kind.name().to_string(), id], f64::from(u8::from(is_on))));
        }
    }
    values
}

/// Of the clock. What is not known has no line.
fn of_clock(clock: &Value) -> [(&'static str, &'static str, Option<f64>); 6] {
    let flag = |it: &Value| it.as_bool().map(|it| f64::from(u8::from(it)));
    [
        ("clock_synchronised", "Whether the system's clock is in sync.", flag(&clock["synchronised"])),
        ("clock_error_seconds", "The most that it is off.", clock["error_ns"].as_f64().map(|it| it / 1e9)),
        ("clock_drift_ppm", "How fast it is steered, in millionths.", clock["drift_ppm"].as_f64()),
        ("clock_last_step_seconds", "Its last step.", clock["last_step_s"].as_f64()),
        ("clock_pps", "Whether a pulse comes each second.", flag(&clock["pps"])),
        ("clock_pps_offset_seconds", "How far the pulse is off.", clock["pps_offset_ns"].as_f64().map(|it| it / 1e9)),
    ]
}

#[cfg(test)]
mod tests {
    use super::*;

    #[test]
    fn figures_become_lines() {
        let value = serde_json::json!({ "state": "recording", "free": 512, "commit_age_ms": 1500,
            "medium": { "number": 2, "of": 3, "volume": "V-002", "path": "/m", "left": 1 },
            "clock": { "synchronised": true, "error_ns": 1500 },
            "alarms": [{ "alarm": "silent", "channel": 5, "text": "x" }],
            "channels": [{ "id": 5, "name": "GPS \"1\"\n", "came": 7, "lost": 2, "lost_by": { "disk": 2 }, "last": { "age_ms": 2000 } }] });
        let text = of(&value).unwrap();
        for line in [
            "r10_recording 1",
            "r10_free_bytes 512",
            "r10_medium{number=\"2\",path=\"/m\",volume=\"V-002\"} 1",
            "r10_media_left 1",
            "r10_commit_age_seconds 1.5",
            "r10_clock_synchronised 1",
            "r10_clock_error_seconds 0.0000015",
            "r10_messages_total{channel=\"5\",name=\"GPS \\\"1\\\"\\n\"} 7",
            "r10_lost_total{channel=\"5\",name=\"GPS \\\"1\\\"\\n\"} 2",
            "r10_lost_by_cause_total{cause=\"disk\",channel=\"5\",name=\"GPS \\\"1\\\"\\n\"} 2",
            "r10_last_message_age_seconds{channel=\"5\",name=\"GPS \\\"1\\\"\\n\"} 2",
            "r10_alarm{alarm=\"silent\",channel=\"5\"} 1",
            "r10_alarm{alarm=\"loss\",channel=\"5\"} 0",
            "r10_alarm{alarm=\"disk\",channel=\"\"} 0",
        ] {
            assert!(text.lines().any(|it| it == line), "{line} in\n{text}");
        }
        assert_eq!(text.lines().filter(|it| it.starts_with("# TYPE")).count(), 1 + 2 + 2 + 2 + WHOLE.len() + OF_CHANNELS.len() + 3);
    }
}
