//! The model of the documents gives the answers of the vectors, on its own: what the library is compared with is anchored itself.
use std::{fs, path::PathBuf};
use tailsprig::{
    model::{
        Answer, AskedItem, Block, Cadence, Choice, Ended, Event, Kind, Listener, Model, Record, Refusal, Report,
        Session, Source, State,
    },
    numbers, steps,
    text::{self, Asked},
};

/// The rows of a vector file. The last field of a row is what must be answered.
fn rows(name: &str) -> Vec<Vec<String>> {
    let path = PathBuf::from(env!("CARGO_MANIFEST_DIR")).join("../tests/vectors").join(name);
    let vectors = fs::read_to_string(path).expect("the vectors can be read");
    let rows: Vec<Vec<String>> =
        vectors.lines().skip(1).map(|row| row.split('\t').map(str::to_string).collect()).collect();
    assert!(rows.len() > 400, "{} rows in {name}", rows.len());
    rows
}

/// Compares what the model gives for each row with its last field.
fn replay(name: &str, answer: impl Fn(&[String]) -> String) {
    for row in rows(name) {
        let (expected, row) = row.split_last().expect("a row has fields");
        assert_eq!(&answer(row), expected, "{name}: {row:?}");
    }
}

fn octets(text: &str) -> Vec<u8> {
    text::octets(text).expect("octets")
}

fn number<T: std::str::FromStr>(text: &str) -> T {
    text::number(text).expect("a number")
}

/// A record of the vectors, whose numbers that say yes or no all do.
fn record(text: &str) -> Record {
    numbers::record(&text::record(text).expect("a record")).expect("yes or no")
}

fn shown<T>(answer: Result<T, Refusal>, show: impl Fn(T) -> String) -> String {
    match answer {
        Ok(answer) => show(answer),
        Err(Refusal(number)) => format!("R{number}"),
    }
}

#[test]
fn the_model_writes_as_the_vectors_say() {
    replay("write.tsv", |row| {
        let kind = if row[0] == "CI" { Kind::Ci } else { Kind::Menu };
        let written = Model::default().write(kind, &octets(&row[1]), number(&row[2]), number(&row[3]));
        shown(written, |bits| text::show_bits(&bits))
    });
}

#[test]
fn the_model_hears_as_the_vectors_say() {
    replay("listen.tsv", |row| {
        let mut line = Listener::fresh();
        let mut reports = Vec::new();
        for bit in text::line(&row[0]) {
            let before = line.heard.len();
            let report = Model::default().hear(&mut line, bit);
            let joined = || text::show_joined(line.octets());
            reports.push(match report {
                Ok(Report::Nothing) => continue,
                Ok(Report::Ci { span }) => format!("{before}:CI:{}:{span}", joined()),
                Ok(Report::Menu { agreed: false, span }) => format!("{before}:MENU:{}:{span}", joined()),
                Ok(Report::Menu { agreed: true, span }) => format!("{before}:MENU:{}:{span}:agreed", joined()),
                Ok(Report::Cj) => format!("{before}:CJ:-:-"),
                Err(Refusal(number)) => format!("{before}:R{number}:-:-"),
            });
        }
        if reports.is_empty() {
            return "-".to_string();
        }
        reports.join(" ")
    });
}

#[test]
fn the_model_looks_as_the_vectors_say() {
    replay("find.tsv", |row| {
        shown(Model::default().find(&octets(&row[0]), number(&row[1])), |place| match place {
            Some(place) => format!("at {place}"),
            None => "nothing".to_string(),
        })
    });
    replay("part.tsv", |row| text::show_octets(Model::default().part(&octets(&row[0]), number(&row[1]))));
}

#[test]
fn the_model_reads_as_the_vectors_say() {
    replay("read.tsv", |row| {
        shown(Model::default().read(&octets(&row[0])), |menu| {
            let items: u32 = menu.items.iter().map(|item| 1 << item).sum();
            let pcm = menu.pcm.map_or(0, |pcm| pcm.options());
            let access = menu.access.map_or("-".to_string(), |access| access.options().to_string());
            format!(
                "function {} items {items:04X} pcm {pcm} lapm {} access {access}",
                menu.function,
                u8::from(menu.lapm)
            )
        })
    });
}

#[test]
fn the_model_asks_as_the_vectors_say() {
    replay("asks.tsv", |row| {
        shown(Model::default().asks(&octets(&row[0]), number(&row[1])), |AskedItem { offered, looked }| {
            text::show_asked_item(offered, looked)
        })
    });
}

/// Blocks as the vectors show them.
fn show_blocks(octets: &[u8], blocks: Vec<Block>) -> String {
    let shown: Vec<String> = blocks
        .into_iter()
        .map(|block| text::show_block(&octets[block.country], &octets[block.provider], &octets[block.rest]))
        .collect();
    text::show_blocks(&shown)
}

#[test]
fn the_model_reads_fields_as_the_vectors_say() {
    let model = Model::default();
    replay("fields.tsv", |row| {
        shown(model.fields(&octets(&row[0]), number(&row[1])), |joined| {
            let blocks = model.blocks(&joined).expect("blocks that were tested");
            format!("joined {} blocks {}", text::show_joined(&joined), show_blocks(&joined, blocks))
        })
    });
    replay("blocks.tsv", |row| {
        let octets = octets(&row[0]);
        shown(model.blocks(&octets), |blocks| show_blocks(&octets, blocks))
    });
}

#[test]
fn the_model_makes_menus_as_the_vectors_say() {
    let model = Model::default();
    replay("cm.tsv", |row| {
        let made = model.cm(&record(&row[0]), number(&row[1]), &octets(&row[2]), number(&row[3]));
        shown(made, |octets| text::show_octets(&octets))
    });
    replay("jm.tsv", |row| {
        let made = model.jm(&record(&row[0]), &octets(&row[1]), number(&row[2]));
        shown(made, |octets| text::show_octets(&octets))
    });
    replay("callf.tsv", |row| match model.call_function(&record(&row[0]), &octets(&row[1]), &octets(&row[2])) {
        Some((Source::Heard, octet)) => format!("heard {octet:02X}"),
        Some((Source::Own, octet)) => format!("own {octet:02X}"),
        None => "empty".to_string(),
    });
}

#[test]
fn the_model_chooses_as_the_vectors_say() {
    replay("choice.tsv", |row| {
        shown(Model::default().choice(&octets(&row[0]), &octets(&row[1])), |choice| match choice {
            Choice::None => "none".to_string(),
            Choice::Item(item) => format!("item {item}"),
            Choice::Pcm(options) => format!("pcm {options}"),
        })
    });
}

#[test]
fn the_model_steps_as_the_vectors_say() {
    let model = Model::default();
    replay("steps.tsv", |row| {
        let start = number(&row[1]);
        let started = match (row[0].as_str(), row[2].as_str()) {
            ("answerer", _) => Ok(model.start_answerer(start)),
            (_, "-") => model.start_caller(start, None, cadence(&row[3], &row[4])),
            (_, te) => model.start_caller(start, Some(number(te)), cadence(&row[3], &row[4])),
        };
        shown(started, |mut session| {
            let answers = row[5].split(' ').map(|text| match text::asked(text).expect("bits or an event") {
                Asked::Bits(count) => text::show_drawn(&numbers::drawn(&model.draw(&mut session, count))),
                Asked::Step(event, now) => {
                    let before = session;
                    let answer = model.step(&mut session, of_text(event), now);
                    assert!(answer.is_ok() || session == before, "a refusal changed the session: {row:?}");
                    shown(answer, |answer| show_answer(answer, &session))
                }
            });
            answers.collect::<Vec<_>>().join(" ")
        })
    });
}

/// The cadence of a caller in the vectors.
fn cadence(text: &str, function: &str) -> Cadence {
    let steps::Cadence { function, on, off } = text::cadence(text, function).expect("a cadence");
    Cadence { function, on, off }
}

/// The model's event for the one that a text names.
fn of_text(event: steps::Event) -> Event {
    let choice = |choice| match choice {
        tailsprig::Choice::Nothing => Choice::None,
        tailsprig::Choice::Item(item) => Choice::Item(item),
        tailsprig::Choice::Pcm(options) => Choice::Pcm(options),
    };
    match event {
        steps::Event::Ansam => Event::Ansam,
        steps::Event::Ans => Event::Ans,
        steps::Event::SigA => Event::SigA,
        steps::Event::AgreedJm(Ok(carried)) => Event::AgreedJm(Ok(choice(carried))),
        steps::Event::AgreedJm(Err(tailsprig::Refusal(number))) => Event::AgreedJm(Err(Refusal(number))),
        steps::Event::CjSent => Event::CjSent,
        steps::Event::AgreedCm(carried) => Event::AgreedCm(choice(carried)),
        steps::Event::SigC(item) => Event::SigC(item),
        steps::Event::Cj => Event::Cj,
        steps::Event::Tick => Event::Tick,
    }
}

/// An answer as the vectors name it, with the session behind it.
fn show_answer(answer: Answer, session: &Session) -> String {
    let name = match answer {
        Answer::Same => "same",
        Answer::Entered(State::CallerStill) => "caller-still",
        Answer::Entered(State::Calling) => "calling",
        Answer::Entered(State::Quiet) => "quiet",
        Answer::Entered(State::Menu) => "menu",
        Answer::Entered(State::Closing) => "closing",
        Answer::Entered(State::Pause) => "pause",
        Answer::Entered(State::AnswererStill) => "answerer-still",
        Answer::Entered(State::Answering) => "answering",
        Answer::Entered(State::Joint) => "joint",
        Answer::Entered(State::Over(Ended::Left)) => "over-left",
        Answer::Entered(State::Over(Ended::Late)) => "over-late",
        Answer::Entered(State::Over(Ended::Cleared)) => "over-cleared",
        Answer::Entered(State::Over(Ended::NotOffered)) => "over-not-offered",
        Answer::Entered(State::Over(Ended::GoOn)) => match session.chosen {
            Choice::None => "over-go-on-none",
            Choice::Item(item) => return format!("over-go-on-item-{item}"),
            Choice::Pcm(options) => return format!("over-go-on-pcm-{options}"),
        },
    };
    name.to_string()
}
