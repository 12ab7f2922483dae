//! Runs the vectors beside this crate against it: `../vectors` for its functions, `../lines` for the line program.

mod support;

use std::collections::BTreeMap;
use std::fs;
use std::io::Write;
use std::path::{Path, PathBuf};
use std::process::{Command, Stdio};

use plain::{choose, fetch, info_start, pair_at, read, tally, vcf_line};
use plain::{Builder, Facts, Kind, Names, Refusal, Turn};
use support::Json;

fn beside(name: &str) -> PathBuf {
    Path::new(env!("CARGO_MANIFEST_DIR")).join("..").join(name)
}

#[test]
fn functions() {
    let mut agree: BTreeMap<&str, (u32, u32)> = BTreeMap::new();
    for op in ["read", "fetch", "walk", "tally", "choose", "build", "vcf_line"] {
        let lines = fs::read_to_string(beside(&format!("vectors/{op}.jsonl"))).expect("the vectors");
        let (agreed, all) = agree.entry(op).or_default();
        for (number, line) in lines.lines().enumerate() {
            let case = Json::read(line);
            let (want, got) = (case.get("want").unwrap(), run(op, &case));
            *all += 1;
            *agreed += u32::from(*want == got);
            if *want != got {
                println!("{op}.jsonl:{}: want {want:?}, got {got:?}", number + 1);
            }
        }
    }
    println!("{agree:?}");
    assert!(!agree.is_empty() && agree.values().all(|(agreed, all)| agreed == all));
}

#[test]
fn lines() {
    let (mut agreed, mut all) = (0, 0);
    for entry in fs::read_dir(beside("lines")).expect("the vectors") {
        let path = entry.unwrap().path();
        if path.extension().is_some_and(|extension| extension == "in") {
            let same = bcflines(&fs::read(&path).unwrap()) == fs::read(path.with_extension("out")).unwrap();
            all += 1;
            agreed += u32::from(same);
            if !same {
                println!("{} differs", path.display());
            }
        }
    }
    println!("lines: ({agreed}, {all})");
    assert!(all > 0 && agreed == all);
}

fn bcflines(input: &[u8]) -> Vec<u8> {
    let mut program =
        Command::new(env!("CARGO_BIN_EXE_bcflines")).stdin(Stdio::piped()).stdout(Stdio::piped()).spawn().unwrap();
    program.stdin.take().unwrap().write_all(input).unwrap();
    program.wait_with_output().unwrap().stdout
}

fn run(op: &str, case: &Json) -> Json {
    let facts = facts(case);
    let record = bytes(case.get("record").unwrap());
    match op {
        "read" => run_read(&record, &facts),
        "fetch" => run_fetch(case, &record, &facts),
        "walk" => run_walk(case, &record, &facts),
        "tally" => run_tally(&record, &facts),
        "choose" => run_choose(case, &record, &facts),
        "build" => run_build(case, facts),
        "vcf_line" => run_vcf_line(case, &record, &facts),
        _ => panic!("no such function: {op}"),
    }
}

fn run_read(record: &[u8], facts: &Facts) -> Json {
    answer(read(record, facts), |site| {
        object(vec![
            ("length", site.length.into()),
            ("chrom", site.contig.into()),
            ("pos", site.pos.into()),
            ("rlen", site.rlen.into()),
            ("qual", site.qual_bits.into()),
            ("alleles", site.alleles.into()),
            ("infos", site.infos.into()),
            ("formats", site.formats.into()),
            ("people", site.people.into()),
        ])
    })
}

fn run_fetch(case: &Json, record: &[u8], facts: &Facts) -> Json {
    let kind = match case.get("kind").unwrap().text() {
        "ID" => Kind::Id,
        "allele" => Kind::Allele,
        "FILTER" => Kind::Filter,
        "INFO" => Kind::Info,
        "FORMAT" => Kind::Format,
        other => panic!("no such kind: {other}"),
    };
    let fetched = fetch(record, facts, kind, case.get("number").unwrap().number() as u32);
    let part = fetched.map_or(&[][..], |field| &record[field.first as usize..field.stop as usize]);
    let told = answer(fetched, |field| value_at(vec![], field.code, field.len, field.first));
    pair("answer", told, "part", Json::Text(hex(part)))
}

/// A walk that has a place starts there on what is lent; one without is refused in opening.
fn run_walk(case: &Json, record: &[u8], facts: &Facts) -> Json {
    let (Some(lent), Some(place)) = (case.get("lent"), case.get("place")) else {
        return answer(info_start(record, facts), u32::into_json);
    };
    let lent = &record[..lent.number() as usize];
    let mut at = place.number() as usize;
    let mut pairs = Vec::new();
    while let Some(found) = pair_at(lent, at) {
        let key = ("key", i64::from(found.key as i32));
        pairs.push(value_at(vec![key], found.code, found.len, found.first));
        at = found.stop as usize;
    }
    pair("pairs", Json::List(pairs), "end", (at as i64).into_json())
}

fn run_tally(record: &[u8], facts: &Facts) -> Json {
    answer(tally(record, facts), |tally| {
        let calls = &tally.counts[..tally.site.alleles as usize];
        Json::Object(vec![
            ("people".into(), i64::from(tally.site.people).into_json()),
            ("without".into(), (tally.without as i64).into_json()),
            ("missing".into(), (tally.missing as i64).into_json()),
            ("calls".into(), Json::List(calls.iter().map(|&count| (count as i64).into_json()).collect())),
        ])
    })
}

fn run_choose(case: &Json, record: &[u8], facts: &Facts) -> Json {
    let choice: Vec<u32> = numbers(case.get("choice").unwrap()).map(|number| number as u32).collect();
    let mut buffer = lent(case);
    let told = answer(choose(record, facts, &choice, &mut buffer), |length| i64::from(length).into_json());
    pair("answer", told, "buffer", Json::Text(hex(&buffer)))
}

fn run_vcf_line(case: &Json, record: &[u8], facts: &Facts) -> Json {
    let lists = ["strings", "contigs"].map(|list| names(case.get(list).unwrap()));
    let [strings, contigs] = lists.each_ref().map(|(text, ends)| Names { text, ends });
    let mut buffer = lent(case);
    let answered = vcf_line(record, facts, strings, contigs, &mut buffer);
    let told = answer(answered, |length| (length as i64).into_json());
    pair("answer", told, "buffer", Json::Text(hex(&buffer)))
}

fn run_build(case: &Json, facts: Facts) -> Json {
    let mut buffer = lent(case);
    let mut builder = Builder::fresh();
    let mut answers = Vec::new();
    for turn in case.get("turns").unwrap().list() {
        let before = (builder.turn(), builder.alleles(), builder.infos(), builder.formats());
        let taken = take_turn(&mut builder, &mut buffer, facts, turn.list());
        let after = (builder.turn(), builder.alleles(), builder.infos(), builder.formats());
        assert!(taken.is_ok() || before == after, "a refused turn keeps the state");
        answers.push(answer(taken, |length| {
            let mut state = object(vec![
                ("at", length.into()),
                ("alleles", builder.alleles().into()),
                ("infos", builder.infos().into()),
                ("formats", builder.formats().into()),
            ]);
            if let Json::Object(fields) = &mut state {
                fields.push(("turn".into(), Json::Text(turn_name(builder.turn()).into())));
            }
            state
        }));
    }
    pair("answers", Json::List(answers), "buffer", Json::Text(hex(&buffer)))
}

fn take_turn(builder: &mut Builder, buf: &mut [u8], facts: Facts, turn: &[Json]) -> Result<u32, Refusal> {
    let number = |index: usize| turn[index].number() as i32;
    match (turn[0].text(), turn.get(2)) {
        ("begin", _) => builder.begin(buf, facts, number(1), number(2), number(3), turn[4].number() as u32),
        ("id", _) => builder.id(buf, &bytes(&turn[1])),
        ("allele", _) => builder.allele(buf, &bytes(&turn[1])),
        ("filter", _) => builder.filter(buf, &integers(&turn[1])),
        ("end", _) => builder.end(buf),
        ("info", Some(form)) => match form.text() {
            "int" => builder.info_integers(buf, number(1), &integers(&turn[3])),
            "float" => builder.info_floats(buf, number(1), &floats(&turn[3])),
            _ => builder.info_text(buf, number(1), &bytes(&turn[3])),
        },
        ("format", Some(form)) => {
            let len = turn[3].number() as u32;
            match form.text() {
                "int" => builder.format_integers(buf, number(1), len, &integers(&turn[4])),
                "float" => builder.format_floats(buf, number(1), len, &floats(&turn[4])),
                _ => builder.format_text(buf, number(1), len, &bytes(&turn[4])),
            }
        }
        other => panic!("no such turn: {other:?}"),
    }
}

fn turn_name(turn: Turn) -> &'static str {
    match turn {
        Turn::Fresh => "fresh",
        Turn::Begun => "begun",
        Turn::Id => "id",
        Turn::Allele => "allele",
        Turn::Filter => "filter",
        Turn::Info => "info",
        Turn::Format => "format",
        Turn::Ended => "ended",
    }
}

fn facts(case: &Json) -> Facts {
    let mut given = numbers(case.get("facts").unwrap()).map(|number| number as u32);
    let mut next = || given.next().expect("four facts");
    Facts { strings: next(), contigs: next(), people: next(), gt: next() }
}

/// The text and the ends of a list of names.
fn names(given: &Json) -> (Vec<u8>, Vec<u32>) {
    let ends = numbers(given.get("ends").unwrap()).map(|end| end as u32);
    (bytes(given.get("text").unwrap()), ends.collect())
}

/// A lent buffer is given by its length and filled with 5A.
fn lent(case: &Json) -> Vec<u8> {
    vec![0x5A; case.get("room").unwrap().number() as usize]
}

fn numbers(list: &Json) -> impl Iterator<Item = i64> + '_ {
    list.list().iter().map(Json::number)
}

fn integers(list: &Json) -> Vec<i32> {
    numbers(list).map(|number| number as i32).collect()
}

fn floats(list: &Json) -> Vec<u32> {
    numbers(list).map(|number| number as u32).collect()
}

/// Text is given in hexadecimal, or as a list of its bytes.
fn bytes(given: &Json) -> Vec<u8> {
    match given {
        Json::Text(digits) => {
            let pair = |at: usize| u8::from_str_radix(&digits[at..at + 2], 16).expect("hexadecimal");
            (0..digits.len()).step_by(2).map(pair).collect()
        }
        list => numbers(list).map(|number| number as u8).collect(),
    }
}

fn hex(bytes: &[u8]) -> String {
    bytes.iter().map(|byte| format!("{byte:02x}")).collect()
}

trait IntoJson {
    fn into_json(self) -> Json;
}

impl<T: Into<i64>> IntoJson for T {
    fn into_json(self) -> Json {
        Json::Number(self.into())
    }
}

fn answer<T>(answered: Result<T, Refusal>, told: impl FnOnce(T) -> Json) -> Json {
    match answered {
        Ok(accepted) => told(accepted),
        Err(Refusal { number, place }) => {
            let refusal = Json::List(vec![number.into_json(), place.into_json()]);
            Json::Object(vec![("no".into(), refusal)])
        }
    }
}

fn object(fields: Vec<(&str, i64)>) -> Json {
    Json::Object(fields.into_iter().map(|(name, number)| (name.into(), number.into_json())).collect())
}

fn value_at(mut fields: Vec<(&str, i64)>, code: u8, len: u32, first: u32) -> Json {
    fields.extend([("type", code.into()), ("length", len.into()), ("place", first.into())]);
    object(fields)
}

fn pair(first: &str, one: Json, second: &str, other: Json) -> Json {
    Json::Object(vec![(first.into(), one), (second.into(), other)])
}
