//! An independent marker, written from docs/ alone. It shares no code with the proved programs; `compare.rs` runs both.
//!
//! Usage: `marker levels paper|sheet < BYTES`, `marker key paper|sheet < BYTES`, `marker sit PAPER < CALLS`.

use std::collections::BTreeSet;
use std::fmt::{self, Write as _};
use std::io::{self, Read, Write};
use std::process::ExitCode;

const MOST_BYTES: usize = 35_328;
const MOST_VARIABLES: usize = 64;
const MOST_FACTS: usize = 256;
const MOST_ACTIONS: usize = 512;
const MOST_IN_LIST: usize = 8;
const LARGEST_SIZE: u8 = 16;
const MOST_COUNTED: u32 = 65_535;

// ---------------------------------------------------------------------------------------------------------------------------------
// Sets of facts
// ---------------------------------------------------------------------------------------------------------------------------------

/// A set of fact numbers below 256.
#[derive(Clone, Copy, Default, PartialEq, Eq)]
struct Facts([u64; 4]);

impl Facts {
    fn put(&mut self, fact: usize) {
        self.0[fact / 64] |= 1 << (fact % 64);
    }

    fn has(&self, fact: usize) -> bool {
        self.0[fact / 64] >> (fact % 64) & 1 == 1
    }

    fn join(mut self, other: Facts) -> Facts {
        for (mine, theirs) in self.0.iter_mut().zip(other.0) {
            *mine |= theirs;
        }
        self
    }

    fn meet(mut self, other: Facts) -> Facts {
        for (mine, theirs) in self.0.iter_mut().zip(other.0) {
            *mine &= theirs;
        }
        self
    }

    fn less(mut self, other: Facts) -> Facts {
        for (mine, theirs) in self.0.iter_mut().zip(other.0) {
            *mine &= !theirs;
        }
        self
    }

    fn is_within(&self, other: &Facts) -> bool {
        self.less(*other) == Facts::default()
    }

    fn count(&self) -> u32 {
        self.0.iter().map(|word| word.count_ones()).sum()
    }

    fn upwards(&self) -> impl Iterator<Item = usize> + '_ {
        (0..MOST_FACTS).filter(|&fact| self.has(fact))
    }

    fn lowest(&self) -> Option<usize> {
        self.upwards().next()
    }
}

impl FromIterator<usize> for Facts {
    fn from_iter<I: IntoIterator<Item = usize>>(facts: I) -> Facts {
        let mut set = Facts::default();
        facts.into_iter().for_each(|fact| set.put(fact));
        set
    }
}

// ---------------------------------------------------------------------------------------------------------------------------------
// Tasks
// ---------------------------------------------------------------------------------------------------------------------------------

/// A variable, its place in the numbering of facts, and its start value.
struct Variable {
    size: u8,
    start: u8,
    first_fact: usize,
}

impl Variable {
    fn fact(&self, value: u8) -> usize {
        self.first_fact + usize::from(value)
    }
}

/// An action by the facts that it needs and gives.
#[derive(Default)]
struct Action {
    needs: Facts,
    gives: Facts,
}

#[derive(Default)]
struct Task {
    variables: Vec<Variable>,
    goal: Facts,
    actions: Vec<Action>,
}

impl Task {
    fn fact_count(&self) -> usize {
        self.variables.last().map_or(0, |last| last.first_fact + usize::from(last.size))
    }

    fn start(&self) -> Facts {
        self.variables.iter().map(|variable| variable.fact(variable.start)).collect()
    }

    /// Every fact with its variable and value, upwards.
    fn facts(&self) -> impl Iterator<Item = (usize, usize, u8)> + '_ {
        self.variables
            .iter()
            .enumerate()
            .flat_map(|(number, variable)| (0..variable.size).map(move |value| (variable.fact(value), number, value)))
    }

    /// The state in which an action leaves a state; both have one fact of each variable.
    fn after(&self, state: Facts, action: &Action) -> Facts {
        let mut next = Facts::default();
        for variable in &self.variables {
            let values: Facts = (0..variable.size).map(|value| variable.fact(value)).collect();
            let given = action.gives.meet(values);
            next = next.join(if given == Facts::default() { state.meet(values) } else { given });
        }
        next
    }

    /// The layers from the given facts, the first one included, up to the one that the next equals.
    fn layers(&self, start: Facts, barred: Option<usize>) -> Vec<Facts> {
        let mut layers = vec![start];
        loop {
            let last = layers[layers.len() - 1];
            let next = self
                .actions
                .iter()
                .filter(|action| action.needs.is_within(&last))
                .filter(|action| !barred.is_some_and(|fact| action.gives.has(fact)))
                .fold(last, |layer, action| layer.join(action.gives));
            if next == last {
                return layers;
            }
            layers.push(next);
        }
    }

    fn reach(&self, start: Facts, barred: Option<usize>) -> Facts {
        let layers = self.layers(start, barred);
        layers[layers.len() - 1]
    }
}

/// The level of a fact: the first layer that has it.
fn level(layers: &[Facts], fact: usize) -> Option<usize> {
    layers.iter().position(|layer| layer.has(fact))
}

// ---------------------------------------------------------------------------------------------------------------------------------
// Reading papers and sheets
// ---------------------------------------------------------------------------------------------------------------------------------

#[derive(Clone, Copy, PartialEq, Eq)]
enum Form {
    Paper,
    Sheet,
}

/// A ground for refusing an input, with its record and byte.
struct ReadFault {
    layer: u8,
    number: u8,
    record: usize,
    byte: u8,
}

impl fmt::Display for ReadFault {
    fn fmt(&self, out: &mut fmt::Formatter) -> fmt::Result {
        write!(out, "E {} {} {} {}", self.layer, self.number, self.record, self.byte)
    }
}

/// What a record is, in either form. The order is that in which they may stand.
#[derive(Clone, Copy, PartialEq, Eq, PartialOrd)]
enum Kind {
    Variable,
    Goal,
    Action,
    Condition,
    Effect,
    Delete,
}

impl Kind {
    fn of(form: Form, byte: u8) -> Option<Kind> {
        let ordinal = match form {
            Form::Paper if (1..=5).contains(&byte) => byte - 1,
            Form::Sheet if (6..=11).contains(&byte) => byte - 6,
            _ => return None,
        };
        [Kind::Variable, Kind::Goal, Kind::Action, Kind::Condition, Kind::Effect, Kind::Delete].get(usize::from(ordinal)).copied()
    }

    /// The first byte that the kind does not use.
    fn unused_from(self, form: Form) -> usize {
        match (self, form) {
            (Kind::Action, _) => 1,
            (_, Form::Sheet) => 2,
            (_, Form::Paper) => 3,
        }
    }

    /// Whether a record of this kind can stand behind one of the kind `last`, or first.
    fn can_follow(self, last: Option<Kind>) -> bool {
        match (last, self) {
            (None, kind) => kind == Kind::Variable,
            (Some(last), Kind::Variable) => last == Kind::Variable,
            (Some(last), Kind::Goal) => last <= Kind::Goal,
            (Some(_), Kind::Action) => true,
            (Some(last), kind) => last >= Kind::Action && last <= kind,
        }
    }
}

/// What was read so far.
struct Reader {
    form: Form,
    task: Task,
    last: Option<Kind>,
    /// The variables that each list names: the goal's, then those of the current action.
    goals: Vec<u8>,
    conditions: Vec<u8>,
    effects: Vec<u8>,
    deletes: Vec<u8>,
}

impl Reader {
    /// Takes one record, or says which layer, number and byte refuse it.
    fn take(&mut self, record: &[u8]) -> Result<(), (u8, u8, u8)> {
        let kind = Kind::of(self.form, record[0]).ok_or((1, 2, 0))?;
        if let Some(byte) = (kind.unused_from(self.form)..4).find(|&byte| record[byte] != 0) {
            return Err((1, 2, byte as u8));
        }
        if !kind.can_follow(self.last) {
            return Err((2, 3, 0));
        }
        if self.is_one_too_many(kind, record) {
            return Err((2, 6, 0));
        }
        match kind {
            Kind::Variable => self.take_variable(record)?,
            Kind::Action => self.open_action(),
            _ => self.take_entry(kind, record)?,
        }
        self.last = Some(kind);
        Ok(())
    }

    fn is_one_too_many(&self, kind: Kind, record: &[u8]) -> bool {
        let task = &self.task;
        match kind {
            Kind::Variable => {
                task.variables.len() == MOST_VARIABLES
                    || self.form == Form::Paper && task.fact_count() + usize::from(record[1]) > MOST_FACTS
            }
            Kind::Goal => false,
            Kind::Action => task.actions.len() == MOST_ACTIONS,
            Kind::Condition => self.conditions.len() == MOST_IN_LIST,
            Kind::Effect | Kind::Delete => self.effects.len() + self.deletes.len() == MOST_IN_LIST,
        }
    }

    fn take_variable(&mut self, record: &[u8]) -> Result<(), (u8, u8, u8)> {
        let (size, start) = match self.form {
            Form::Paper => (record[1], record[2]),
            Form::Sheet => (2, record[1]),
        };
        if size == 0 || size > LARGEST_SIZE || self.form == Form::Sheet && start > 1 {
            return Err((2, 4, 1));
        }
        if start >= size {
            return Err((2, 4, 2));
        }
        let first_fact = self.task.fact_count();
        self.task.variables.push(Variable { size, start, first_fact });
        Ok(())
    }

    fn open_action(&mut self) {
        self.task.actions.push(Action::default());
        self.conditions.clear();
        self.effects.clear();
        self.deletes.clear();
    }

    /// A goal, condition, effect, add or delete.
    fn take_entry(&mut self, kind: Kind, record: &[u8]) -> Result<(), (u8, u8, u8)> {
        let named = record[1];
        let value = match (self.form, kind) {
            (Form::Paper, _) => record[2],
            (Form::Sheet, Kind::Delete) => 0,
            (Form::Sheet, _) => 1,
        };
        let variable = self.task.variables.get(usize::from(named)).ok_or((2, 4, 1))?;
        if value >= variable.size {
            return Err((2, 4, 2));
        }
        let list = match kind {
            Kind::Goal => &mut self.goals,
            Kind::Condition => &mut self.conditions,
            Kind::Delete => &mut self.deletes,
            _ => &mut self.effects,
        };
        if list.contains(&named) {
            return Err((2, 5, 1));
        }
        list.push(named);
        // Of an add and a delete of one fact the add counts, and adds come first.
        let overruled = kind == Kind::Delete && self.effects.contains(&named);
        let fact = variable.fact(value);
        match (kind, self.task.actions.last_mut()) {
            (Kind::Goal, _) => self.task.goal.put(fact),
            (Kind::Condition, Some(action)) => action.needs.put(fact),
            (_, Some(action)) if !overruled => action.gives.put(fact),
            _ => {}
        }
        Ok(())
    }
}

fn read_task(form: Form, bytes: &[u8]) -> Result<Task, ReadFault> {
    if bytes.is_empty() || !bytes.len().is_multiple_of(4) || bytes.len() > MOST_BYTES {
        return Err(ReadFault { layer: 1, number: 1, record: 0, byte: 0 });
    }
    let mut reader = Reader {
        form,
        task: Task::default(),
        last: None,
        goals: Vec::new(),
        conditions: Vec::new(),
        effects: Vec::new(),
        deletes: Vec::new(),
    };
    for (number, record) in bytes.chunks_exact(4).enumerate() {
        reader.take(record).map_err(|(layer, ground, byte)| ReadFault { layer, number: ground, record: number, byte })?;
    }
    Ok(reader.task)
}

// ---------------------------------------------------------------------------------------------------------------------------------
// The key and the sitting
// ---------------------------------------------------------------------------------------------------------------------------------

#[derive(Clone, Copy, PartialEq, Eq)]
enum Answer {
    Done,
    Taken,
    Known,
    Refused(u8, u64),
    Report { steps: u32, visited: u32, remainder: Option<usize> },
}

impl fmt::Display for Answer {
    fn fmt(&self, out: &mut fmt::Formatter) -> fmt::Result {
        match self {
            Answer::Done => write!(out, "0"),
            Answer::Taken => write!(out, "1"),
            Answer::Known => write!(out, "2"),
            Answer::Refused(number, returned) => write!(out, "refused {number} {returned}"),
            Answer::Report { steps, visited, remainder: Some(bound) } => write!(out, "{steps} {visited} {bound}"),
            Answer::Report { steps, visited, remainder: None } => write!(out, "{steps} {visited} dead end"),
        }
    }
}

struct Key<'a> {
    task: &'a Task,
    start: Facts,
    reach: Facts,
    facts: Facts,
    /// Earlier fact, later fact, kind.
    orderings: BTreeSet<(usize, usize, u64)>,
    state: Facts,
    visited: Facts,
    steps: u32,
    tally: u32,
}

impl<'a> Key<'a> {
    fn open(task: &'a Task) -> Key<'a> {
        let start = task.start();
        Key {
            task,
            start,
            reach: task.reach(start, None),
            facts: Facts::default(),
            orderings: BTreeSet::new(),
            state: start,
            visited: start,
            steps: 0,
            tally: 0,
        }
    }

    /// The lowest goal fact that is out of reach from the task's own start.
    fn lost_goal(&self) -> Option<usize> {
        self.task.goal.less(self.reach).lowest()
    }

    fn fact(&self, number: u64) -> Result<usize, Answer> {
        usize::try_from(number).ok().filter(|&fact| fact < self.task.fact_count()).ok_or(Answer::Refused(8, number))
    }

    fn test_goal(&self) -> Result<(), Answer> {
        self.lost_goal().map_or(Ok(()), |fact| Err(Answer::Refused(7, fact as u64)))
    }

    fn unconfirmed(&mut self, number: u8, returned: usize) -> Answer {
        self.tally = MOST_COUNTED.min(self.tally + 1);
        Answer::Refused(number, returned as u64)
    }

    fn propose(&mut self, number: u64) -> Result<Answer, Answer> {
        self.test_goal()?;
        let fact = self.fact(number)?;
        if self.facts.has(fact) {
            return Ok(Answer::Known);
        }
        if self.start.has(fact) || !self.task.goal.is_within(&self.task.reach(self.start, Some(fact))) {
            self.facts.put(fact);
            return Ok(Answer::Taken);
        }
        Err(self.unconfirmed(9, fact))
    }

    fn order(&mut self, kind: u64, earlier: u64, later: u64) -> Result<Answer, Answer> {
        self.test_goal()?;
        if kind != 1 && kind != 2 {
            return Err(Answer::Refused(8, kind));
        }
        let (earlier, later) = (self.fact(earlier)?, self.fact(later)?);
        if let Some(fact) = [earlier, later].into_iter().find(|&fact| !self.facts.has(fact)) {
            return Err(Answer::Refused(10, fact as u64));
        }
        if self.start.has(later) {
            return Err(Answer::Refused(11, later as u64));
        }
        if self.orderings.contains(&(earlier, later, kind)) {
            return Ok(Answer::Known);
        }
        let reach = if kind == 1 { self.task.reach(self.start, Some(later)) } else { self.reach };
        let against = self
            .task
            .actions
            .iter()
            .position(|action| action.gives.has(later) && action.needs.is_within(&reach) && !action.needs.has(earlier));
        if let Some(action) = against {
            return Err(self.unconfirmed(12, action));
        }
        self.orderings.insert((earlier, later, kind));
        Ok(Answer::Taken)
    }

    fn begin(&mut self) -> Result<Answer, Answer> {
        self.test_goal()?;
        self.state = self.start;
        self.visited = self.start;
        self.steps = 0;
        Ok(Answer::Done)
    }

    fn step(&mut self, number: u64) -> Result<Answer, Answer> {
        self.test_goal()?;
        let task = self.task;
        let action = usize::try_from(number).ok().and_then(|action| task.actions.get(action)).ok_or(Answer::Refused(13, number))?;
        if self.steps == MOST_COUNTED {
            return Err(Answer::Refused(15, number));
        }
        if let Some(fact) = action.needs.less(self.state).lowest() {
            return Err(Answer::Refused(14, fact as u64));
        }
        self.state = task.after(self.state, action);
        self.visited = self.visited.join(self.state);
        self.steps += 1;
        Ok(Answer::Done)
    }

    fn report(&self) -> Result<Answer, Answer> {
        self.test_goal()?;
        let visited = self.facts.meet(self.visited).count();
        Ok(Answer::Report { steps: self.steps, visited, remainder: self.remainder() })
    }

    /// A lower bound on the steps from the position to the goal; none at a dead end.
    fn remainder(&self) -> Option<usize> {
        let layers = self.task.layers(self.state, None);
        let mut highest = 0;
        for fact in self.task.goal.upwards() {
            highest = highest.max(level(&layers, fact)?);
        }
        let missing = self.facts.less(self.visited).join(self.task.goal.less(self.state)).count() as usize;
        let most_effects = self.task.actions.iter().map(|action| action.gives.count()).max().unwrap_or(0) as usize;
        let by_count = if missing == 0 { 0 } else { missing.div_ceil(most_effects) };
        Some(highest.max(by_count))
    }

    /// What the key holds, and the state.
    fn held(&self) -> String {
        let facts = joined(self.facts.upwards().map(|fact| fact.to_string()));
        let orderings = joined(self.orderings.iter().map(|(earlier, later, kind)| format!("{earlier}:{later}:{kind}")));
        let held = self.task.facts().filter(|&(fact, ..)| self.state.has(fact));
        let state = joined(held.map(|(.., value)| value.to_string()));
        format!("facts {facts} orderings {orderings} state {state}")
    }
}

fn joined(parts: impl Iterator<Item = String>) -> String {
    let parts: Vec<String> = parts.collect();
    if parts.is_empty() {
        "-".to_string()
    } else {
        parts.join(",")
    }
}

/// The answer, whether it is a refusal or not.
fn either(answer: Result<Answer, Answer>) -> Answer {
    answer.unwrap_or_else(|refusal| refusal)
}

// ---------------------------------------------------------------------------------------------------------------------------------
// What is printed
// ---------------------------------------------------------------------------------------------------------------------------------

fn print_levels(task: &Task) -> String {
    let layers = task.layers(task.start(), None);
    let counts = (task.variables.len(), task.fact_count(), task.actions.len(), layers.len() - 1);
    let mut out = format!("variables {}, facts {}, actions {}, layers {}\n", counts.0, counts.1, counts.2, counts.3);
    for (fact, variable, value) in task.facts() {
        let _ = match level(&layers, fact) {
            Some(level) => writeln!(out, "fact {fact}: variable {variable} is {value}, level {level}"),
            None => writeln!(out, "fact {fact}: variable {variable} is {value}, out of reach"),
        };
    }
    out
}

fn print_key(task: &Task) -> String {
    let mut key = Key::open(task);
    if let Some(fact) = key.lost_goal() {
        return format!("E 3 7 {fact} 0\n");
    }
    let facts = 0..task.fact_count() as u64;
    for fact in facts.clone() {
        let _ = key.propose(fact);
    }
    for earlier in facts.clone() {
        for later in facts.clone() {
            let _ = key.order(1, earlier, later);
            let _ = key.order(2, earlier, later);
        }
    }
    let layers = task.layers(key.start, None);
    let mut out = String::new();
    for (fact, variable, value) in task.facts().filter(|&(fact, ..)| key.facts.has(fact)) {
        let level = level(&layers, fact).map_or("-".to_string(), |level| level.to_string());
        let _ = writeln!(out, "F {fact} {variable} {value} {level}");
    }
    let pairs: BTreeSet<(usize, usize)> = key.orderings.iter().map(|&(earlier, later, _)| (earlier, later)).collect();
    for (earlier, later) in pairs {
        let letter = if key.orderings.contains(&(earlier, later, 2)) { 'N' } else { 'G' };
        let _ = writeln!(out, "{letter} {earlier} {later}");
    }
    out
}

/// A number of any length; one that is too large counts as the largest.
fn number(word: &[u8]) -> Option<u64> {
    word.iter().try_fold(0u64, |sum, &byte| {
        byte.is_ascii_digit().then(|| sum.saturating_mul(10).saturating_add(u64::from(byte - b'0')))
    })
}

/// What a line of a sitting gets; none if it is no call.
fn answer_line(key: &mut Key, line: &[u8]) -> Option<String> {
    let words: Vec<&[u8]> = line.split(|&byte| byte == b' ' || byte == b'\r').filter(|word| !word.is_empty()).collect();
    let (command, rest) = words.split_first()?;
    let numbers = rest.iter().map(|word| number(word)).collect::<Option<Vec<u64>>>()?;
    let answer = match (*command, numbers.as_slice()) {
        (b"propose", &[fact]) => key.propose(fact),
        (b"order", &[kind, earlier, later]) => key.order(kind, earlier, later),
        (b"begin", &[]) => key.begin(),
        (b"step", &[action]) => key.step(action),
        (b"report", &[]) => key.report(),
        (b"tally", &[]) => return Some(key.tally.to_string()),
        (b"held", &[]) => return Some(key.held()),
        _ => return None,
    };
    Some(either(answer).to_string())
}

fn print_sitting(task: &Task, calls: &[u8]) -> String {
    let mut key = Key::open(task);
    let mut out = String::new();
    // A line ends with its line end or with the input; behind the last line end there is no line.
    for (index, line) in calls.split_inclusive(|&byte| byte == b'\n').enumerate() {
        let line = line.strip_suffix(b"\n").unwrap_or(line);
        let answer = answer_line(&mut key, line).unwrap_or_else(|| format!("malformed {}", index + 1));
        out.push_str(&answer);
        out.push('\n');
    }
    out
}

// ---------------------------------------------------------------------------------------------------------------------------------
// The command line
// ---------------------------------------------------------------------------------------------------------------------------------

fn standard_input() -> io::Result<Vec<u8>> {
    let mut bytes = Vec::new();
    io::stdin().lock().read_to_end(&mut bytes)?;
    Ok(bytes)
}

fn form(name: &str) -> Option<Form> {
    match name {
        "paper" => Some(Form::Paper),
        "sheet" => Some(Form::Sheet),
        _ => None,
    }
}

/// What the arguments ask to print; none if they ask nothing that there is.
fn printed(arguments: &[&str]) -> io::Result<Option<String>> {
    let refused = |fault: ReadFault| format!("{fault}\n");
    Ok(Some(match *arguments {
        ["levels", name] => match form(name) {
            Some(form) => read_task(form, &standard_input()?).map_or_else(refused, |task| print_levels(&task)),
            None => return Ok(None),
        },
        ["key", name] => match form(name) {
            Some(form) => read_task(form, &standard_input()?).map_or_else(refused, |task| print_key(&task)),
            None => return Ok(None),
        },
        ["sit", path] => match read_task(Form::Paper, &std::fs::read(path)?) {
            Ok(task) => print_sitting(&task, &standard_input()?),
            Err(fault) => refused(fault),
        },
        _ => return Ok(None),
    }))
}

fn main() -> ExitCode {
    let arguments: Vec<String> = std::env::args().skip(1).collect();
    let arguments: Vec<&str> = arguments.iter().map(String::as_str).collect();
    let done = printed(&arguments).and_then(|text| match text {
        Some(text) => io::stdout().write_all(text.as_bytes()),
        None => Err(io::Error::other("usage: marker levels|key paper|sheet < BYTES, marker sit PAPER < CALLS")),
    });
    match done {
        Ok(()) => ExitCode::SUCCESS,
        Err(error) => {
            eprintln!("marker: {error}");
            ExitCode::FAILURE
        }
    }
}
