//! The program `rehearse`, through the words of its call texts: it understands what both ends can do as it was said, and ends the call
//! as the model of document 01 says. Both ends go on with what the model chooses from the CM and the JM that it makes of the same two
//! records, or the call is cleared, or the text gets the line for what is wrong with a record or with the function of the call, or with
//! the caller's blocks. A stranger's CM is sent as it is given, and both ends go on with what the model chooses from it and its JM for it.
//! Below each CM that the answerer hears stand the blocks that the model reads in it. CI is sent as the model's caller gives it out.
use std::{
    collections::{BTreeMap, BTreeSet},
    fs,
    io::Write,
    ops::Range,
    path::{Path, PathBuf},
    process::{Command, Stdio},
};
use tailsprig::{
    model::{self, Block, Cadence, Choice, End, Function, Kind, Menu, Model, Record, Refusal, Session, State},
    numbers, text,
};

const FUNCTIONS: [&str; 6] = ["H.324", "textphone", "videotex", "fax-sent", "fax-received", "data"];

/// The items from 1 on.
const ITEMS: [&str; 12] = [
    "V.34",
    "V.34-half-duplex",
    "V.32bis",
    "V.22bis",
    "V.17",
    "V.29-half-duplex",
    "V.27ter",
    "V.26ter",
    "V.26bis",
    "V.23",
    "V.23-half-duplex",
    "V.21",
];

const PCM: [&str; 3] = ["PCM-analogue", "PCM-digital", "V.91"];

const ACCESS: [&str; 3] = ["caller-cellular", "answerer-cellular", "digital-network"];

/// The items by the names that a choice has, from 1 on.
const CHOSEN: [&str; 12] = [
    "V.34 duplex",
    "V.34 half duplex",
    "V.32 bis",
    "V.22 bis",
    "V.17",
    "V.29 half duplex",
    "V.27 ter",
    "V.26 ter",
    "V.26 bis",
    "V.23 duplex",
    "V.23 half duplex",
    "V.21",
];

const HEADING: &str = "   ms  caller                                                                         answerer";

const HOME_NOT_HAD: &str = "the home function is not among the functions of the end";
const PCM_ALONE: &str = "PCM-analogue and PCM-digital are offered beside V.34 alone";
const CALL_NOT_HAD: &str = "the caller has not the function of the call";

const TOO_MANY: &str = "the blocks do not fit into a CM of 64 octets";
const NO_BLOCKS: &str = "the octets are not blocks: a block is longer than what remains, or a code does not fit in it";

const WITH_BLOCKS: &str = "a CM that is sent as it is takes no blocks";

/// How a call ends whose CM is agreed too late, or is not answered.
const LATE: &str = "the ends differ: the caller gave up, late; the answerer left";

/// Marsaglia's xorshift: the same numbers in every run.
struct Random(u64);

impl Random {
    fn below(&mut self, limit: usize) -> usize {
        self.0 ^= self.0 << 13;
        self.0 ^= self.0 >> 7;
        self.0 ^= self.0 << 17;
        (self.0 >> 33) as usize % limit
    }

    /// True once in so many times.
    fn one_in(&mut self, times: usize) -> bool {
        self.below(times) == 0
    }

    fn of<'a>(&mut self, some: &[&'a str]) -> &'a str {
        some[self.below(some.len())]
    }

    fn shuffle<T>(&mut self, some: &mut [T]) {
        for last in (1..some.len()).rev() {
            some.swap(last, self.below(last + 1));
        }
    }

    /// A record that can be said in words; one in ten or so is bad.
    fn record(&mut self) -> Record {
        let often = 1 + self.below(7);
        let mut function = || {
            let available = !self.one_in(3);
            let pcm = if available && self.one_in(2) { self.below(8) as u8 } else { 0 };
            let with_v34 = pcm % 4 != 0 && !self.one_in(40);
            let item = |item: &u8| available && (self.one_in(often) || *item == 1 && with_v34);
            Function { available, items: (1..=12).filter(item).collect(), pcm }
        };
        let functions = [function(), function(), function(), function(), function(), function()];
        let had: Vec<u8> = (1..=6).filter(|number| functions[usize::from(*number) - 1].available).collect();
        let home = if had.is_empty() || self.one_in(20) { self.below(6) as u8 + 1 } else { had[self.below(had.len())] };
        Record {
            functions,
            home,
            lapm: self.one_in(2),
            access: self.one_in(3),
            cellular: self.one_in(3),
            digital: self.one_in(3),
        }
    }

    /// Octets of blocks, which may be too many, or none. One in eight are any octets, and hardly ever blocks.
    fn blocks(&mut self) -> Vec<u8> {
        match self.below(8) {
            0 => {
                let count = self.below(70);
                self.octets(count)
            }
            1..=3 => Vec::new(),
            _ => (0..1 + self.below(3)).flat_map(|_| self.block()).collect(),
        }
    }

    fn block(&mut self) -> Vec<u8> {
        let full = if self.one_in(4) { self.below(3) } else { 0 };
        let (country, provider, rest) = (self.below(255) as u8, self.below(4), self.below(12));
        let mut block = vec![255; full];
        block.extend([country, provider as u8]);
        block.extend(self.octets(provider));
        block.extend(self.octets(rest));
        block.insert(0, block.len() as u8);
        block
    }

    /// So many octets, all of them printable half of the time.
    fn octets(&mut self, count: usize) -> Vec<u8> {
        let (lowest, values) = if self.one_in(2) { (b' ', 95) } else { (0, 256) };
        (0..count).map(|_| lowest + self.below(values) as u8).collect()
    }

    /// The CM of a stranger. One in eight are any octets, which can hardly ever be sent; of others some are too long.
    fn given(&mut self) -> Vec<u8> {
        if self.one_in(8) {
            let count = 1 + self.below(70);
            return self.octets(count);
        }
        let mut cm = vec![0x01 | (self.below(8) as u8) << 5, 0x05 | (self.below(8) as u8) << 5];
        let most = if self.one_in(8) { 68 } else { 5 };
        for _ in 0..self.below(most) {
            cm.push(0x10 | (self.below(4) as u8) << 6 | self.below(8) as u8);
        }
        for category in [0x2A, 0x0D, 0x07] {
            if !self.one_in(4) {
                cm.push(category | (self.below(8) as u8) << 5);
            }
        }
        cm
    }

    /// How many sequences CI is on, and how many bit times off, or nothing of both.
    fn cadence(&mut self) -> Option<(u8, u16)> {
        self.one_in(2).then(|| (3 + self.below(18) as u8, 120 + self.below(481) as u16))
    }

    /// When the answerer answers, or nothing of it.
    fn answers(&mut self) -> Option<u32> {
        self.one_in(3).then(|| 200 + self.below(6000) as u32)
    }

    /// A function, most often one that the caller has.
    fn function(&mut self, caller: &Record) -> u8 {
        match self.below(6) as u8 + 1 {
            function if caller.functions[usize::from(function) - 1].available || self.one_in(4) => function,
            _ => caller.home,
        }
    }
}

/// What is planned: two ends, the function of the call, the CM of a stranger in place of the caller's record and of the function, Te
/// the cadence and the time of the answer where they are given, the octets of the caller's blocks, the damaged bits of either end.
struct Call {
    ends: [Record; 2],
    function: u8,
    given: Option<Vec<u8>>,
    te: Option<usize>,
    cadence: Option<(u8, u16)>,
    answers: Option<u32>,
    blocks: Vec<u8>,
    damaged: [BTreeSet<usize>; 2],
}

/// What the caller sends while it calls: when each on period begins, the bits by their times, without those of silence, and when it is
/// quiet.
struct Calling {
    begins: Vec<u32>,
    bits: BTreeMap<usize, u8>,
    quiet: u32,
}

const ENDS: [&str; 2] = ["caller", "answerer"];

fn name(function: u8) -> &'static str {
    FUNCTIONS[usize::from(function) - 1]
}

/// The modes of a function by their names.
fn modes(items: &[u8], pcm: u8) -> Vec<&'static str> {
    let items = (1..=12).filter(|item| items.contains(item)).map(|item| ITEMS[usize::from(item) - 1]);
    items.chain(options(pcm, &PCM)).collect()
}

/// The names of options, the lowest bit first.
fn options(options: u8, names: &[&'static str; 3]) -> impl Iterator<Item = &'static str> {
    let names = *names;
    (0..3).filter(move |bit| options >> bit & 1 == 1).map(move |bit| names[bit])
}

/// The names of some of these things.
fn those<const N: usize>(some: [(bool, &'static str); N]) -> impl Iterator<Item = &'static str> {
    some.into_iter().filter(|(there, _)| *there).map(|(_, name)| name)
}

/// A record in words, in the order that a plan has.
fn plain_record(own: &Record) -> String {
    let mut said = String::new();
    for (place, function) in own.functions.iter().enumerate().filter(|(_, function)| function.available) {
        let names: Vec<&str> = [FUNCTIONS[place]].into_iter().chain(modes(&function.items, function.pcm)).collect();
        said += &format!("{}, ", names.join(" "));
    }
    said += &format!("home {}", name(own.home));
    said.extend(those([(own.lapm, ", wants LAPM"), (own.access, ", wants access")]));
    said.extend(those([(own.cellular || own.digital, ","), (own.cellular, " cellular"), (own.digital, " digital")]));
    said
}

impl Call {
    /// How long the caller is quiet: as the text gives it, or as the model starts a caller without a value.
    fn te(&self) -> usize {
        self.te.unwrap_or_else(|| match Model::default().start_caller(0, None, self.cadence()) {
            Ok(Session { end: End::Caller { te, .. }, .. }) => te as usize,
            other => panic!("no caller: {other:?}"),
        })
    }

    /// The cadence of CI, which names the function of the call, or that of a stranger's CM, or data where this is none of the six.
    fn cadence(&self) -> Cadence {
        let (on, off) = self.cadence.unwrap_or((5, 450));
        let given = self.given.as_ref().map(|cm| Model::default().read(cm).map_or(0, |menu| menu.function));
        let function = given.unwrap_or(self.function);
        Cadence { function: if (1..=6).contains(&function) { function } else { 6 }, on, off }
    }

    /// The CI of the caller in the words of the ladder.
    fn ci(&self) -> String {
        shown("CI", &[self.cadence().function << 5 | 1])
    }

    /// When the answerer answers: with its first tick at that time or behind it.
    fn answered_at(&self) -> u32 {
        (self.answers.unwrap_or(200) * 3).div_ceil(10) * 10 / 3
    }

    /// How the model's caller calls, which gets a tick in each bit time, hears ANSam behind the one in which it begins, and is asked for one
    /// bit.
    fn calling(&self) -> Calling {
        let model = Model::default();
        let mut session = model.start_caller(0, None, self.cadence()).expect("a caller");
        let (mut begins, mut bits) = (Vec::new(), BTreeMap::new());
        for time in 0.. {
            let now = time as u32 * 10 / 3;
            model.step(&mut session, model::Event::Tick, now).expect("a tick");
            if now > self.answered_at() {
                model.step(&mut session, model::Event::Ansam, now).expect("ANSam");
            }
            match session.state {
                State::CallerStill => continue,
                State::Calling => {}
                _ => return Calling { begins, bits, quiet: now },
            }
            if session.given % self.cadence().period() == 0 {
                begins.push(now);
            }
            let drawn = model.draw(&mut session, 1);
            bits.extend(drawn[0].map(|bit| (time, bit)));
        }
        unreachable!("time goes on")
    }

    /// The plan that stands above the ladder.
    fn plain(&self) -> String {
        let [caller, answerer] = self.ends.each_ref().map(plain_record);
        let (function, te) = (name(self.function), self.te());
        let mut plan = match &self.given {
            Some(cm) => format!("caller    sends {}\nanswerer  {answerer}\n", text::show_octets(cm)),
            None => format!("caller    {caller}\nanswerer  {answerer}\ncall      {function}\n"),
        };
        let Cadence { on, off, .. } = self.cadence();
        let answers = self.answers.unwrap_or(200);
        plan += &format!("Te        {te}\ncadence   {on} {off}\nanswers   {answers}\n");
        for line in self.blocks.chunks(16) {
            plan += &format!("blocks    {}\n", text::show_octets(line));
        }
        for (end, bits) in ENDS.iter().zip(&self.damaged) {
            let bits: Vec<String> = bits.iter().map(usize::to_string).collect();
            for line in bits.chunks(16) {
                plan += &format!("damaged   {end} {}\n", line.join(" "));
            }
        }
        plan
    }

    /// The call in other words: its lines in any order, and within them what may stand in any order, each word in any letters, with
    /// anything between that parts words. And the line that the text must get, where it is no call.
    fn in_other_words(&self, random: &mut Random) -> (String, Option<String>) {
        let mut lines = vec![line_of_end(random, 1, &self.ends[1])];
        match &self.given {
            Some(cm) => {
                let octets = cm.iter().map(|octet| any_letters(random, &format!("{octet:02X}"))).collect();
                lines.push([vec!["caller".to_string(), any_letters(random, "sends")], octets].concat());
            }
            None => {
                lines.push(line_of_end(random, 0, &self.ends[0]));
                lines.push(vec!["call".to_string(), any_letters(random, name(self.function))]);
            }
        }
        if let Some(te) = self.te {
            lines.push(vec!["Te".to_string(), te.to_string()]);
        }
        if let Some(answers) = self.answers {
            lines.push(vec!["answers".to_string(), answers.to_string()]);
        }
        if let Some((on, off)) = self.cadence {
            lines.push(vec!["cadence".to_string(), on.to_string(), off.to_string()]);
        }
        for (end, bits) in ENDS.iter().zip(&self.damaged) {
            let mut bits: Vec<String> = bits.iter().map(usize::to_string).collect();
            random.shuffle(&mut bits);
            for bits in bits.chunks(4 + random.below(20)) {
                lines.push([&["damaged".to_string(), any_letters(random, end)], bits].concat());
            }
        }
        let mut blocks = self.blocks.chunks(1 + random.below(20));
        lines.extend(blocks.clone().map(|_| vec!["blocks".to_string()]));
        random.shuffle(&mut lines);
        // The octets are joined in the order of the text.
        for line in lines.iter_mut().filter(|line| line[0] == "blocks") {
            let octets = blocks.next().expect("a line for each");
            line.extend(octets.iter().map(|octet| any_letters(random, &format!("{octet:02X}"))));
        }
        let mut text = String::new();
        let (mut wrong, mut caller_known, mut call_known) = (None, false, false);
        for line in lines {
            while random.one_in(4) {
                text += random.of(&["\n", " \t,\r\n", "# call data\n", "  #caller\n"]);
            }
            let number = 1 + text.matches('\n').count();
            let at = match line[0].as_str() {
                "call" => format!("line {number}, '{}'", line[1]),
                _ => format!("line {number}, at its end"),
            };
            caller_known |= line[0] == "caller";
            call_known |= line[0] == "call";
            if wrong.is_none() {
                let of_end = ENDS.iter().position(|end| *end == line[0]).and_then(|end| self.wrong_end(end));
                let of_call = || (caller_known && call_known).then(|| self.wrong_call()).flatten();
                wrong = of_end.or_else(of_call).map(|what| format!("{at}: {what}"));
            }
            text += random.of(&["", "", " ", "\t,"]);
            text += &any_letters(random, &line[0]);
            for word in &line[1..] {
                text += random.of(&[" ", " ", "  ", "\t", ",", ", ", " ,,\r "]);
                text += word;
            }
            text += random.of(&["\n", "\n", " \r\n", "# V.90\n", ", # \n"]);
        }
        (text, wrong)
    }

    /// What is wrong with an end, where the model says that its record is bad.
    fn wrong_end(&self, end: usize) -> Option<&'static str> {
        if end == 0 && self.given.is_some() {
            return None;
        }
        let own = &self.ends[end];
        let home = own.functions[usize::from(own.home) - 1].available;
        // Any function will do: that the record is bad comes first.
        match Model::default().cm(own, own.home, &[], 64) {
            Err(Refusal(10)) if home => Some(PCM_ALONE),
            Err(Refusal(10)) => Some(HOME_NOT_HAD),
            _ => None,
        }
    }

    /// What is wrong with the function of the call, where the model says that the caller has it not.
    fn wrong_call(&self) -> Option<&'static str> {
        let called = self.given.is_none().then(|| Model::default().cm(&self.ends[0], self.function, &[], 64));
        (called == Some(Err(Refusal(5)))).then_some(CALL_NOT_HAD)
    }

    /// The line that the plain text gets where it is no call.
    fn wrong(&self) -> Option<String> {
        let end = |end: usize| self.wrong_end(end).map(|what| format!("line {}, at its end: {what}", end + 1));
        let call = || self.wrong_call().map(|what| format!("line 3, '{}': {what}", name(self.function)));
        end(0).or_else(|| end(1)).or_else(call)
    }

    /// The line that the call gets where nothing is wrong with its text, and the model makes no CM with the caller's blocks, or cannot
    /// send the one that is given; and what that counts as.
    fn unmade(&self) -> Option<(String, &'static str)> {
        let model = Model::default();
        match &self.given {
            Some(_) if !self.blocks.is_empty() => Some((WITH_BLOCKS.to_string(), "with blocks")),
            Some(cm) => {
                let unsent = |Refusal(number)| format!("the CM that is given cannot be sent, refusal {number}");
                model.write(Kind::Menu, cm, 1, 1000).err().map(|refusal| (unsent(refusal), "unsent"))
            }
            None => match model.cm(&self.ends[0], self.function, &self.blocks, 64) {
                Err(Refusal(4)) => Some((TOO_MANY.to_string(), "too many")),
                Err(Refusal(14)) => Some((NO_BLOCKS.to_string(), "no blocks")),
                _ => None,
            },
        }
    }

    /// With which bit CM begins: the first behind Te, which counts from when the caller is quiet.
    fn cm_begins(&self) -> usize {
        ((self.calling().quiet as usize + self.te()) * 3).div_ceil(10)
    }

    /// Whether CM is agreed while the answerer waits, on a line without damage: it is with the last of the ten 1s behind its second copy. The
    /// answerer leaves 5,000 ms behind its answer.
    fn in_time(&self, cm: &[u8]) -> bool {
        let leaves = ((self.answered_at() as usize + 5000) * 3).div_ceil(10);
        self.cm_begins() + 2 * (20 + 10 * cm.len()) + 10 <= leaves
    }

    /// CM of a call that nothing is wrong with: as it is given, or as the model makes it.
    fn cm(&self) -> Vec<u8> {
        let made = || Model::default().cm(&self.ends[0], self.function, &self.blocks, 64);
        self.given.clone().unwrap_or_else(|| made().expect("the caller has the function"))
    }

    /// JM for it and the choice, as the model makes them, or why there is no JM.
    fn answered(&self, cm: &[u8]) -> Result<(Vec<u8>, Choice), Refusal> {
        let jm = Model::default().jm(&self.ends[1], cm, 64)?;
        let choice = Model::default().choice(cm, &jm).expect("what we answer was offered");
        Ok((jm, choice))
    }
}

/// A word in upper case, in lower case or as it is.
fn any_letters(random: &mut Random, word: &str) -> String {
    match random.below(4) {
        0 => word.to_uppercase(),
        1 => word.to_lowercase(),
        _ => word.to_string(),
    }
}

/// The words of an end's line, in any order that says the same. The home function is left out where it is the first.
fn line_of_end(random: &mut Random, end: usize, own: &Record) -> Vec<String> {
    let mut said: Vec<Vec<&str>> = Vec::new();
    for (place, function) in own.functions.iter().enumerate().filter(|(_, function)| function.available) {
        let mut modes = modes(&function.items, function.pcm);
        random.shuffle(&mut modes);
        said.push([FUNCTIONS[place]].into_iter().chain(modes).collect());
    }
    said.extend(those([(own.lapm, "LAPM"), (own.access, "access")]).map(|wanted| vec!["wants", wanted]));
    said.extend(those([(own.cellular, "cellular"), (own.digital, "digital")]).map(|quality| vec![quality]));
    random.shuffle(&mut said);
    let first = said.iter().map(|words| words[0]).find(|word| FUNCTIONS.contains(word));
    if first != Some(name(own.home)) || random.one_in(2) {
        said.insert(random.below(said.len() + 1), vec!["home", name(own.home)]);
    }
    let mut line = vec![ENDS[end].to_string()];
    for word in said.concat() {
        let word = match word {
            "V.32bis" | "V.22bis" if random.one_in(3) => &word[..4],
            _ => word,
        };
        line.push(any_letters(random, word));
    }
    line
}

/// What the program prints for a text.
fn rehearsed(call: &str) -> String {
    let program = Path::new(env!("CARGO_MANIFEST_DIR")).join("../target/bin/rehearse");
    let mut child = Command::new(&program)
        .stdin(Stdio::piped())
        .stdout(Stdio::piped())
        .spawn()
        .unwrap_or_else(|error| panic!("{}: {error}; `make programs` makes it", program.display()));
    child.stdin.take().expect("a pipe").write_all(call.as_bytes()).expect("the program reads the text");
    let output = child.wait_with_output().expect("the program ends");
    assert!(output.status.success(), "{}: {call}", output.status);
    String::from_utf8(output.stdout).expect("the program prints text")
}

/// What happens to an end, with the text for it, which may take several rows, and what stands below it of a field.
struct Event {
    now: u32,
    answerer: bool,
    what: String,
    text: Vec<String>,
    field: Vec<String>,
}

impl Event {
    /// What must stand below it: the field of a CM that the answerer hears, as the model reads it. Nothing below all else.
    fn field_heard(&self) -> Vec<String> {
        match self.text.first() {
            Some(name) if self.answerer && self.what == "hears" && name.starts_with("CM") => {
                field(&octets_of(&self.text.join(" ")))
            }
            _ => Vec::new(),
        }
    }
}

/// The words of a row. An arrow is no text.
fn words(row: &str) -> impl Iterator<Item = String> + '_ {
    let words = row.split_whitespace().filter(|word| !word.trim_matches(['<', '>']).chars().all(|c| c == '-'));
    words.map(str::to_string)
}

/// What the ladder says of the field of a heard menu: each of its blocks, or that it is refused. Of a menu that cannot be read it says
/// nothing.
fn field(heard: &[u8]) -> Vec<String> {
    let model = Model::default();
    let said = match model.fields(heard, 64) {
        Ok(octets) => {
            let blocks = model.blocks(&octets).expect("a field that is read has blocks");
            blocks.iter().enumerate().map(|(place, block)| block_said(place + 1, &octets, block)).collect()
        }
        Err(Refusal(number @ (14 | 15))) => vec![format!("its field is refused with {number}")],
        Err(_) => Vec::new(),
    };
    words(&said.join(" ")).collect()
}

fn block_said(number: usize, octets: &[u8], block: &Block) -> String {
    let part = |part: &Range<usize>, name: &str, none: &str| match &octets[part.clone()] {
        [] => none.to_string(),
        octets => format!("{name} {}", text::show_octets(octets)),
    };
    let country = part(&block.country, "country", "a country code always has an octet");
    let provider = part(&block.provider, "provider", "no provider code");
    let rest = part(&block.rest, "rest", "no rest");
    let quoted = match &octets[block.rest.clone()] {
        [] => String::new(),
        rest if rest.iter().all(|octet| (0x20..=0x7E).contains(octet)) => {
            format!(" \"{}\"", String::from_utf8_lossy(rest))
        }
        _ => String::new(),
    };
    format!("block {number}: {country}, {provider}, {rest}{quoted}")
}

/// The ladder of a call: what happens, and how it ends.
struct Ladder {
    events: Vec<Event>,
    ending: String,
}

impl Ladder {
    /// What the answerer first tells of this.
    fn first(&self, what: &str) -> Option<String> {
        let mut events = self.events.iter().filter(|event| event.answerer && event.what == what);
        events.next().map(|event| event.text.join(" "))
    }

    /// What the answerer hears that has this name.
    fn heard(&self, name: &str) -> Vec<String> {
        let of_answerer = self.events.iter().filter(|event| event.answerer && event.what == "hears");
        of_answerer.map(|event| event.text.join(" ")).filter(|heard| heard.starts_with(name)).collect()
    }

    /// When an end first tells of this.
    fn at(&self, what: &str) -> u32 {
        self.events.iter().find(|event| event.what == what).unwrap_or_else(|| panic!("no {what}")).now
    }

    /// What an end sends when it enters a state; it does so once.
    fn sent(&self, what: &str) -> Option<String> {
        let mut events = self.events.iter().filter(|event| event.what == what);
        let sent = events.next().map(|event| event.text.join(" "));
        assert!(events.next().is_none(), "{what} twice");
        sent
    }
}

/// The plan that the program prints for a call, and the ladder below it, which keeps to its columns. The plan, as a text, gets the same.
fn plan_and_ladder<'a>(call: &str, printed: &'a str) -> (&'a str, Ladder) {
    let (plan, below) = printed.split_once("\n\n").unwrap_or_else(|| panic!("no ladder: {call}{printed}"));
    let plan = &printed[..plan.len() + 1];
    assert_eq!(rehearsed(plan), printed, "the plan of {call}");
    assert!(printed.ends_with('\n') && printed.is_ascii(), "{call}{printed}");
    assert!(printed.lines().all(|line| line.trim_end() == line), "blanks at an end: {call}{printed}");
    let mut rows: Vec<&str> = below.lines().collect();
    let ending = rows.pop().expect("an ending").to_string();
    assert!(is_known(&ending), "{ending}: {call}{printed}");
    assert_eq!(rows.remove(0), HEADING, "{call}{printed}");
    let mut events: Vec<Event> = Vec::new();
    let mut before = 0;
    for row in rows {
        assert!(row.len() <= 100, "{row}: {call}");
        let row = format!("{row:100}");
        let (clock, caller, middle, answerer) = (&row[..5], row[7..18].trim(), &row[18..86], row[86..].trim());
        if clock.trim().is_empty() {
            assert!(caller.is_empty() && answerer.is_empty(), "{row}: {call}");
            let event = events.last_mut().expect("something goes on");
            let begins = ["block ", "its field "].iter().any(|begin| middle.trim_start().starts_with(begin));
            let goes_on = if begins || !event.field.is_empty() { &mut event.field } else { &mut event.text };
            goes_on.extend(words(middle));
            continue;
        }
        let now: u32 = clock.trim().parse().unwrap_or_else(|_| panic!("no time: {row}: {call}"));
        assert!(before <= now && now < 30_000, "{row}: {call}");
        assert!(caller.is_empty() != answerer.is_empty(), "not one end: {row}: {call}");
        before = now;
        let what = caller.to_string() + answerer;
        events.push(Event { now, answerer: caller.is_empty(), what, text: words(middle).collect(), field: Vec::new() });
    }
    assert!(events.iter().all(|event| event.field == event.field_heard()), "{call}{printed}");
    let begin =
        |answerer: bool| events.iter().find(|event| event.answerer == answerer).map(|event| event.what.as_str());
    assert_eq!([false, true].map(begin), [Some("still"); 2], "{call}{printed}");
    (plan, Ladder { events, ending })
}

/// What is chosen, as the ladder says it.
fn chosen(choice: Choice) -> Option<String> {
    match choice {
        Choice::None => None,
        Choice::Item(item) => Some(format!("item {item} ({})", CHOSEN[usize::from(item) - 1])),
        Choice::Pcm(pcm) => {
            let named: Vec<&str> = options(pcm, &["answerer analogue", "answerer digital", "V.91"]).collect();
            Some(format!("PCM ({})", named.join(", ")))
        }
    }
}

/// The last line for a choice that both ends make.
fn ending(choice: Choice) -> String {
    match chosen(choice) {
        None => "both ends cleared, no mode is shared".to_string(),
        Some(choice) => format!("both ends go on with {choice}"),
    }
}

/// How a call may end.
fn is_known(ending: &str) -> bool {
    let choices = (1..=12).map(Choice::Item).chain((1..=7).map(Choice::Pcm));
    let choices: Vec<String> = choices.filter_map(chosen).collect();
    let known = |words: &str, goes_on: &str| {
        let others = ["left", "gave up, late", "cleared, no mode is shared", "ended, the choice was not offered"];
        others.contains(&words)
            || words.strip_prefix(goes_on).is_some_and(|choice| choices.iter().any(|of| of == choice))
    };
    if let Some(both) = ending.strip_prefix("both ends ") {
        return known(both, "go on with ");
    }
    match ending.strip_prefix("the ends differ: the caller ").and_then(|ends| ends.split_once("; the answerer ")) {
        Some((caller, answerer)) => {
            caller != answerer && known(caller, "goes on with ") && known(answerer, "goes on with ")
        }
        None => ending == "the call is not over after 30 seconds",
    }
}

/// A menu in the words of the ladder: its name, what the model reads in it, its octets.
fn shown(menu: &str, octets: &[u8]) -> String {
    let Menu { function, items, pcm, lapm, access } = Model::default().read(octets).expect("a menu");
    let modes = modes(&items, pcm.map_or(0, |pcm| pcm.options()));
    let mut said = menu.to_string();
    if (1..=6).contains(&function) {
        said += &format!(" {}", name(function));
    }
    if !modes.is_empty() {
        said += &format!(": {}", modes.join(" "));
    }
    said.extend(those([(lapm, ", LAPM"), (access.is_some(), ", access")]));
    for option in options(access.map_or(0, |access| access.options()), &ACCESS) {
        said += &format!(" {option}");
    }
    format!("{said} {}", text::show_octets(octets))
}

/// The octets at the end of a menu in words.
fn octets_of(shown: &str) -> Vec<u8> {
    let octet = |word: &str| u8::from_str_radix(word, 16).ok().filter(|_| word.len() == 2);
    let mut octets: Vec<u8> = shown.rsplit(' ').map_while(octet).collect();
    octets.reverse();
    octets
}

/// How often calls ended in these ways.
#[derive(Default)]
struct Counts(BTreeMap<&'static str, usize>);

impl Counts {
    fn add(&mut self, what: &'static str) {
        *self.0.entry(what).or_default() += 1;
    }

    fn at_least(&self, least: usize, of: &[&str]) {
        assert!(of.iter().all(|what| self.0.get(what).is_some_and(|count| *count >= least)), "{:?}", self.0);
    }
}

/// Rehearses a call over a line without damage, in the words of a text, which must get a line or end as the model says.
fn ends_as_the_model_says(call: &Call, said: &str, wrong: Option<String>, counts: &mut Counts) {
    let printed = rehearsed(said);
    if let Some(line) = wrong {
        assert_eq!(printed, line + "\n", "{said}");
        return counts.add("refused");
    }
    if let Some((line, what)) = call.unmade() {
        assert_eq!(printed, line + "\n", "{said}");
        return counts.add(what);
    }
    let (plan, ladder) = plan_and_ladder(said, &printed);
    assert_eq!(plan, call.plain(), "{said}");
    let calling = call.calling();
    let on: Vec<&Event> = ladder.events.iter().filter(|event| event.what == "calling").collect();
    assert_eq!(on.iter().map(|event| event.now).collect::<Vec<_>>(), calling.begins, "{said}{printed}");
    assert!(on.iter().all(|event| !event.answerer && event.text.join(" ") == call.ci()), "{said}{printed}");
    // An answerer that is on the line from the first on hears CI in every on period, and a late one no other.
    let heard = ladder.heard("CI");
    assert!(heard.iter().all(|heard| *heard == call.ci()), "{said}{printed}");
    assert!(call.answers.is_some() || heard.len() == calling.begins.len(), "{said}{printed}");
    assert_eq!(ladder.at("quiet"), calling.quiet, "{said}{printed}");
    let cm = call.cm();
    let (jm, choice) = match call.answered(&cm) {
        Ok(answered) if call.in_time(&cm) => answered,
        other => {
            assert_eq!(ladder.sent("menu"), Some(shown("CM", &cm)), "{said}{printed}");
            assert_eq!(ladder.sent("joint"), None, "{said}{printed}");
            assert_eq!(ladder.ending, LATE, "{said}{printed}");
            // A CM that is not answered is told once, however often it is agreed.
            let refused = other.err().filter(|_| call.in_time(&cm));
            let told = refused.map(|Refusal(number)| format!("no JM, refusal {number}"));
            assert_eq!(ladder.sent("refused"), told, "{said}{printed}");
            return counts.add("late");
        }
    };
    if !call.blocks.is_empty() {
        counts.add("blocks");
    }
    if call.given.is_some() {
        counts.add("strangers");
    }
    counts.add(match choice {
        Choice::None => "cleared",
        Choice::Item(_) => "modes",
        Choice::Pcm(_) => "pcm",
    });
    // Te has passed at the first tick behind it; they are 3 or 4 ms apart.
    let quiet = (ladder.at("menu") - ladder.at("quiet")) as usize;
    assert!((call.te()..call.te() + 4).contains(&quiet), "{said}{printed}");
    assert_eq!(ladder.sent("menu"), Some(shown("CM", &cm)), "{said}{printed}");
    assert_eq!(ladder.heard("CM").first(), Some(&shown("CM", &cm)), "{said}{printed}");
    assert_eq!(ladder.sent("joint"), Some(shown("JM", &jm)), "{said}{printed}");
    assert_eq!(ladder.ending, ending(choice), "{said}{printed}");
}

fn root() -> PathBuf {
    Path::new(env!("CARGO_MANIFEST_DIR")).join("..")
}

/// The records of a vector file that can be said in words, each with the two columns behind it. A function that is not available is said
/// as not there, whatever the record has for it.
fn records(name: &str) -> Vec<(Record, [String; 2])> {
    let vectors = fs::read_to_string(root().join("tests/vectors").join(name)).expect("the vectors can be read");
    let mut said = Vec::new();
    for row in vectors.lines().skip(1) {
        let fields: Vec<&str> = row.split('\t').collect();
        let mut own = numbers::record(&text::record(fields[0]).expect("a record")).expect("yes or no");
        for function in own.functions.iter_mut().filter(|function| !function.available) {
            *function = Function { available: false, items: Vec::new(), pcm: 0 };
        }
        let has_names =
            |function: &Function| function.pcm < 8 && function.items.iter().all(|item| (1..=12).contains(item));
        if own.functions.iter().all(has_names) && (1..=6).contains(&own.home) {
            said.push((own, [fields[1].to_string(), fields[2].to_string()]));
        }
    }
    said
}

#[test]
fn a_rehearsed_call_ends_as_the_model_says() {
    let mut counts = Counts::default();
    for ((caller, [function, blocks]), (answerer, _)) in records("cm.tsv").into_iter().zip(records("jm.tsv")) {
        let blocks = text::octets(&blocks).expect("octets");
        // The function of a vector is often none that the caller has, or none at all, so data is asked for too.
        let asked: u8 = function.parse().expect("a function is a byte");
        let ends = [caller, answerer];
        for function in BTreeSet::from([asked, 6]).into_iter().filter(|function| (1..=6).contains(function)) {
            let call = Call {
                ends: ends.clone(),
                function,
                given: None,
                te: None,
                cadence: None,
                answers: None,
                blocks: blocks.clone(),
                damaged: Default::default(),
            };
            ends_as_the_model_says(&call, &call.plain(), call.wrong(), &mut counts);
        }
    }
    counts.at_least(20, &["modes", "pcm", "cleared", "refused", "too many", "no blocks", "blocks", "late"]);
}

#[test]
fn a_call_in_any_words_ends_as_the_model_says() {
    let mut random = Random(1);
    let mut counts = Counts::default();
    for _ in 0..600 {
        let ends = [random.record(), random.record()];
        let function = random.function(&ends[0]);
        let te = random.one_in(2).then(|| 500 + random.below(2900));
        let (cadence, answers, blocks) = (random.cadence(), random.answers(), random.blocks());
        let call = Call { ends, function, given: None, te, cadence, answers, blocks, damaged: Default::default() };
        let (said, wrong) = call.in_other_words(&mut random);
        ends_as_the_model_says(&call, &said, wrong, &mut counts);
    }
    counts.at_least(20, &["modes", "pcm", "cleared", "refused", "too many", "no blocks", "blocks", "late"]);
}

#[test]
fn a_stranger_is_answered_as_the_model_says() {
    let mut random = Random(3);
    let mut counts = Counts::default();
    for _ in 0..800 {
        let ends = [random.record(), random.record()];
        let given = Some(random.given());
        let te = random.one_in(2).then(|| 500 + random.below(2900));
        let blocks = if random.one_in(10) { random.blocks() } else { Vec::new() };
        let (cadence, answers) = (random.cadence(), random.answers());
        let call = Call { ends, function: 6, given, te, cadence, answers, blocks, damaged: Default::default() };
        let (said, wrong) = call.in_other_words(&mut random);
        ends_as_the_model_says(&call, &said, wrong, &mut counts);
    }
    counts.at_least(20, &["strangers", "modes", "pcm", "cleared", "refused", "unsent", "with blocks", "late"]);
}

#[test]
fn the_answerer_waits_for_a_field_as_long_as_the_model_says() {
    let none = || Function { available: false, items: Vec::new(), pcm: 0 };
    let data = Function { available: true, items: vec![4, 12], pcm: 0 };
    let functions = [none(), none(), none(), none(), none(), data];
    let own = Record { functions, home: 6, lapm: false, access: false, cellular: false, digital: false };
    let mut counts = Counts::default();
    // A CM with more is too late behind the shortest Te.
    for rest in 0..=23 {
        let blocks = [&[rest + 2, 0xB5, 0][..], &vec![b'7'; rest.into()]].concat();
        let mut call = Call {
            ends: [own.clone(), own.clone()],
            function: 6,
            given: None,
            te: None,
            cadence: None,
            answers: None,
            blocks,
            damaged: Default::default(),
        };
        // The latest CM that is agreed, and one that begins a bit later.
        let cm = call.cm();
        let latest = (500..=5000).filter(|te| {
            call.te = Some(*te);
            call.in_time(&cm)
        });
        let latest = latest.max().expect("a Te");
        for te in [latest, latest + 1] {
            call.te = Some(te);
            ends_as_the_model_says(&call, &call.plain(), None, &mut counts);
        }
    }
    counts.at_least(24, &["modes", "late"]);
}

#[test]
fn a_menu_that_damage_makes_is_answered_as_the_model_says() {
    let model = Model::default();
    let mut answered: Vec<(Record, Vec<u8>)> = Vec::new();
    let fields = fs::read_to_string(root().join("tests/vectors/fields.tsv")).expect("the vectors can be read");
    let mut fields = fields.lines().skip(1).map(|row| row.split('\t').next().expect("octets").to_string());
    // As long as a message may be, for half of the records, since these take long: with every name, and with modulation octets alone, of
    // which JM has as many.
    let named = [&[0xC1, 0xE5, 0xD7, 0xD7, 0xE7, 0x2A, 0xED][..], &[0xD7; 57]].concat();
    let unnamed = [&[0xC1, 0x05][..], &[0x10; 62]].concat();
    let longest = [Some(named), Some(unnamed), None, None];
    for ((own, [heard, _]), longest) in records("jm.tsv").into_iter().zip(longest.iter().cycle()) {
        let menus = [heard].into_iter().chain(fields.by_ref().take(2)).map(|menu| text::octets(&menu).expect("octets"));
        answered.extend(menus.chain(longest.clone()).map(|heard| (own.clone(), heard)));
    }
    let mut counts = Counts::default();
    for (own, heard) in answered {
        let Ok(bits) = model.write(Kind::Menu, &heard, 2, 2000) else { continue };
        let jm = match model.jm(&own, &heard, 64) {
            Ok(jm) => Some(jm),
            // What is sent can be read, so that is a JM that would be too long: there is none, and no choice.
            Err(Refusal(4)) => None,
            Err(_) => continue,
        };
        let mut call = Call {
            ends: [own.clone(), own.clone()],
            function: own.home,
            given: None,
            te: Some(5000),
            cadence: None,
            answers: None,
            blocks: Vec::new(),
            damaged: Default::default(),
        };
        // The caller is quiet for long, so that its line has 1s alone but for CI, and the answerer waits from 200 ms on. Ten 1s are behind the
        // menu, where CI may be sent too.
        let sent = call.calling().bits;
        let wanted = bits.iter().chain(&[1; 10]).enumerate().map(|(place, bit)| (60 + place, *bit));
        call.damaged[0] =
            wanted.filter(|(time, bit)| sent.get(time).unwrap_or(&1) != bit).map(|(time, _)| time).collect();
        let said = call.plain();
        let printed = rehearsed(&said);
        let (plan, ladder) = plan_and_ladder(&said, &printed);
        assert_eq!(plan, said);
        assert_eq!(ladder.heard("CM").first(), Some(&shown("CM", &heard)), "{said}{printed}");
        let choice = jm.as_ref().map(|jm| model.choice(&heard, jm).expect("what we answer was offered"));
        assert_eq!(
            ladder.first("agreed"),
            choice.map(|choice| chosen(choice).unwrap_or("no shared mode".to_string())),
            "{said}{printed}"
        );
        assert_eq!(ladder.sent("joint"), jm.as_ref().map(|jm| shown("JM", jm)), "{said}{printed}");
        match jm.map_or(0, |jm| jm.len()) {
            0 => {
                assert_eq!(ladder.first("refused"), Some("no JM, refusal 4".to_string()), "{said}{printed}");
                assert_eq!(ladder.ending, LATE, "{said}{printed}");
                counts.add("no JM");
            }
            1..=3 => counts.add("short JM"),
            4..=7 => {}
            _ => counts.add("long JM"),
        }
        counts.add(match model.fields(&heard, 64) {
            Ok(octets) if octets.is_empty() => "no field",
            Ok(_) => "blocks",
            Err(Refusal(14)) => "no blocks",
            Err(_) => "badly packed",
        });
    }
    counts.at_least(20, &["no field", "blocks", "no blocks", "badly packed", "no JM", "short JM", "long JM"]);
}

#[test]
fn a_call_over_a_damaged_line_ends_in_a_known_way() {
    let mut random = Random(2);
    let mut counts = Counts::default();
    for _ in 0..800 {
        let ends = [random.record(), random.record()];
        let function = random.function(&ends[0]);
        let latest = if random.one_in(8) { 5000 } else { 2000 };
        let te = random.one_in(2).then(|| 500 + random.below(latest - 499));
        let (cadence, answers, blocks) = (random.cadence(), random.answers(), random.blocks());
        let mut call = Call { ends, function, given: None, te, cadence, answers, blocks, damaged: Default::default() };
        if call.wrong().is_some() || call.unmade().is_some() {
            continue;
        }
        let cm = call.cm();
        let (jm, _) = call.answered(&cm).expect("a CM of ours is answered");
        // Where CM begins; JM does so two copies of it later. CI goes before.
        let begins = call.cm_begins();
        if random.one_in(3) {
            call.damaged[0].extend((0..1 + random.below(4)).map(|_| 300 + random.below(90)));
        }
        let copies = [&cm, &jm].map(|menu| 20 + 10 * menu.len());
        for (end, from) in [begins, begins + 2 * copies[0]].into_iter().enumerate() {
            for _ in 0..random.below(4) {
                let bit = (from + random.below(4 * copies[end])).min(8999);
                call.damaged[end].insert(bit);
                // In the next copy as well, so that another menu is agreed.
                if random.one_in(2) {
                    call.damaged[end].insert((bit + copies[end]).min(8999));
                }
            }
            if random.one_in(20) {
                call.damaged[end].extend((0..random.below(1500)).map(|_| random.below(9000)));
            }
        }
        let (said, _) = call.in_other_words(&mut random);
        let printed = rehearsed(&said);
        let (plan, ladder) = plan_and_ladder(&said, &printed);
        assert_eq!(plan, call.plain(), "{said}");
        for event in &ladder.events {
            match event.field.first().map(String::as_str) {
                Some("block") => counts.add("blocks"),
                Some(_) => counts.add("field refused"),
                None => {}
            }
        }
        if let Some(sent) = ladder.sent("menu") {
            assert_eq!(sent, shown("CM", &cm), "{said}{printed}");
        }
        let answered = ladder.sent("joint").map(|sent| octets_of(&sent));
        if let Some(answered) = &answered {
            assert_eq!(ladder.sent("joint"), Some(shown("JM", answered)), "{said}{printed}");
        }
        counts.add(match ladder.ending.as_str() {
            differ if differ.starts_with("the ends differ") => "differ",
            both if both.starts_with("both ends go on with") => {
                let choice = Model::default().choice(&cm, &answered.expect("JM was sent"));
                assert_eq!(both, ending(choice.expect("JM answers CM")), "{said}{printed}");
                "go on"
            }
            _ => "other",
        });
    }
    counts.at_least(20, &["go on", "differ", "other", "blocks", "field refused"]);
}
