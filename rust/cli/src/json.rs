//! The JSON objects; docs/JSON.md has every field.

use crate::chunks;
use crate::facts::{Set, Track};
use crate::found::Fact;
use crate::judge::{Answer, BoxAt, Judged};
use crate::layout::letters;
use crate::place::paths;
use crate::reason::{Part, Reason};
use crate::refusals;
use crate::stream::Streamed;
use flangemint::Verdict;
use serde_json::{json, Map, Value};

type Object = Map<String, Value>;

/// A judged set; `boundaries` may be left out where nobody asked for them.
pub fn about(set: &Set, reason: Option<&Reason>, boundaries: bool) -> Object {
    let mut object = judged(&set.files, set.names.len(), &set.judged, reason, boundaries);
    // Tracks of one set share boundaries and not chunks.
    if let (true, [_], Some(track)) = (boundaries, &set.names[..], set.track(0)) {
        put_chunks(&mut object, &track);
    }
    object
}

/// A track by itself.
pub fn alone(track: &Track, reason: Option<&Reason>) -> Object {
    let mut object = judged(&[track.name.to_owned()], 1, &track.alone, reason, true);
    put_chunks(&mut object, track);
    object
}

/// The starts of an accepted track's chunks, fragment by fragment.
fn put_chunks(object: &mut Object, track: &Track) {
    if track.alone.verdict.is_accepted() {
        object.insert("chunks".into(), json!(chunks::starts(track)));
    }
}

fn judged(
    files: &[String],
    tracks: usize,
    judged: &Judged,
    reason: Option<&Reason>,
    boundaries: bool,
) -> Object {
    let mut object = verdict(&judged.verdict);
    object.insert("files".into(), json!(files));
    object.insert("tracks".into(), json!(tracks));
    if judged.verdict.is_accepted() {
        object.insert("fragments".into(), json!(judged.verdict.count));
        object.insert("timescale".into(), json!(judged.verdict.timescale));
        if boundaries {
            object.insert("boundaries".into(), json!(judged.boundaries));
        }
    }
    if let Some(reason) = reason {
        object.insert("refusal".into(), Value::Object(refusal(reason)));
    }
    object
}

/// A track in pieces.
pub fn streamed(streamed: &Streamed, reason: Option<&Reason>) -> Object {
    let Answer { verdict: answered, first, last } = streamed.answer;
    let mut object = verdict(&answered);
    object.insert("files".into(), json!([streamed.name]));
    object.insert("tracks".into(), json!(1));
    object.insert("bytes".into(), json!(streamed.bytes));
    if answered.is_accepted() {
        object.insert("fragments".into(), json!(answered.count));
        object.insert("timescale".into(), json!(answered.timescale));
        object.insert("first".into(), json!(first));
        object.insert("last".into(), json!(last));
    }
    if let Some(reason) = reason {
        object.insert("refusal".into(), Value::Object(refusal(reason)));
    }
    object
}

/// A set that was not judged, and why.
pub fn not_judged(files: &[String], error: &str) -> Object {
    let mut object = Object::new();
    object.insert("files".into(), json!(files));
    object.insert("verdict".into(), json!("not judged"));
    object.insert("error".into(), json!(error));
    object
}

fn verdict(verdict: &Verdict) -> Object {
    let mut object = Object::new();
    object.insert(
        "verdict".into(),
        json!(if verdict.is_accepted() { "accepted" } else { "refused" }),
    );
    object.insert("number".into(), json!(verdict.number));
    object.insert("track".into(), json!(verdict.track));
    object.insert("place".into(), json!(verdict.place));
    object
}

fn refusal(reason: &Reason) -> Object {
    let mut object = Object::new();
    let mut put = |name: &str, value: Option<Value>| {
        value.map(|value| object.insert(name.to_owned(), value));
    };
    let text = |part: Option<&refusals::Part>| part.map(|part| json!(part.text()));
    put("file", Some(json!(reason.file)));
    put("title", reason.section.map(|section| json!(section.title)));
    put("means", text(reason.section.and_then(|section| section.means())));
    put("cause", text(reason.section.and_then(|section| section.cause())));
    put("remedy", text(reason.section.and_then(|section| section.remedy())));
    put(
        "box",
        reason.spot.named.as_ref().map(|(one, path)| {
            json!({"path": path, "type": letters(one.kind), "offset": one.offset, "size": one.size})
        }),
    );
    put("end", reason.at_end.then_some(Value::Bool(true)));
    put("around", reason.spot.around.as_ref().map(|path| json!(path)));
    put("chunk", reason.chunk.map(part));
    put("fragment", reason.fragment.map(part));
    put("found", reason.contrast.as_ref().map(|contrast| fact(&contrast.found)));
    put("expected", reason.contrast.as_ref().map(|contrast| fact(&contrast.expected)));
    put("note", reason.hint.map(|hint| json!(hint)));
    object
}

fn part(part: Part) -> Value {
    let mut object = Object::new();
    object.insert("number".into(), json!(part.number));
    if let Some(start) = part.start {
        object.insert("start".into(), json!(start.ticks));
        object.insert("timescale".into(), json!(start.timescale));
        object.insert("seconds".into(), json!(start.ticks as f64 / start.timescale as f64));
    }
    Value::Object(object)
}

/// The number is left out where it fits no integer of 64 bits.
fn fact(fact: &Fact) -> Value {
    let mut object = Object::new();
    object.insert("words".into(), json!(fact.words));
    let unsigned =
        fact.number.and_then(|number| u64::try_from(number).ok()).map(|number| json!(number));
    let signed =
        || fact.number.and_then(|number| i64::try_from(number).ok()).map(|number| json!(number));
    if let Some(number) = unsigned.or_else(signed) {
        object.insert("number".into(), number);
    }
    Value::Object(object)
}

/// The boxes of a track.
pub fn boxes(track: &Track) -> Object {
    let boxes = &track.listing.boxes;
    let refused = track.refused_box();
    let row = |(nth, path): (usize, String)| {
        let BoxAt { offset, size, kind, depth } = boxes[nth];
        let mut row = json!({
            "offset": offset, "size": size, "type": letters(kind), "depth": depth, "path": path,
        });
        if refused == Some(nth) {
            row["refused"] = json!(true);
        }
        row
    };
    let mut object = verdict(&track.alone.verdict);
    object.insert("file".into(), json!(track.name));
    object.insert("listed".into(), json!(if track.listing.proved { "index" } else { "bytes" }));
    object.insert("boxes".into(), paths(boxes).into_iter().enumerate().map(row).collect());
    object
}

/// One line.
pub fn line(object: Object) -> String {
    format!("{}\n", Value::Object(object))
}

#[cfg(test)]
mod tests {
    use super::*;
    use crate::bundle::Bundle;
    use maker::bundle::record;
    use maker::cases::Job;
    use maker::examples::examples;
    use std::collections::BTreeSet;

    const PAGE: &str = include_str!("../../../docs/JSON.md");

    fn collect(value: &Value, names: &mut BTreeSet<String>) {
        match value {
            Value::Object(object) => object.iter().for_each(|(name, value)| {
                assert!(!value.is_null(), "{name} is left out, not null");
                names.insert(name.clone());
                collect(value, names);
            }),
            Value::Array(values) => values.iter().for_each(|value| collect(value, names)),
            _ => (),
        }
    }

    /// Every field that any example gives is on the page, and every kind of object was looked at.
    #[test]
    fn fields_are_documented() {
        let mut names = BTreeSet::new();
        let mut add = |object: Object| collect(&Value::Object(object), &mut names);
        for example in examples() {
            let bytes = example.case.bytes;
            let set = match example.case.job {
                Job::Set => Set::of_bundle("set".to_owned(), Bundle::packed(bytes)),
                _ => Set::of_files(vec!["track".to_owned()], Bundle::packed(record(&bytes))),
            };
            add(about(&set, Reason::of_set(&set).as_ref(), true));
            if let Some(track) = set.track(0) {
                add(boxes(&track));
                let one = crate::stream::tests::streamed(track.bytes, 1000);
                add(streamed(&one, Reason::of_stream(&one).as_ref()));
            }
        }
        add(not_judged(&[], "why"));
        for name in &names {
            assert!(PAGE.contains(&format!("`{name}`")), "{name} is not in JSON.md");
        }
        let some = [
            "around",
            "boundaries",
            "chunks",
            "depth",
            "end",
            "error",
            "expected",
            "last",
            "path",
            "refused",
            "seconds",
        ];
        for name in some {
            assert!(names.contains(name), "{name} is never there");
        }
    }
}
