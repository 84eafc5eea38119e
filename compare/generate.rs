//! Seeded random papers, sheets and call lists for `compare.rs`. The same seed gives the same input.

/// A small xorshift generator.
pub struct Random(u64);

impl Random {
    pub fn new(seed: u64) -> Random {
        // Neighbouring seeds are spread apart, and none gives the state 0.
        let mut state = seed.wrapping_add(0x9e37_79b9_7f4a_7c15);
        state = (state ^ state >> 30).wrapping_mul(0xbf58_476d_1ce4_e5b9);
        state = (state ^ state >> 27).wrapping_mul(0x94d0_49bb_1331_11eb);
        Random((state ^ state >> 31) | 1)
    }

    fn next(&mut self) -> u64 {
        self.0 ^= self.0 << 13;
        self.0 ^= self.0 >> 7;
        self.0 ^= self.0 << 17;
        self.0.wrapping_mul(0x2545_f491_4f6c_dd1d) >> 16
    }

    /// A number below `bound`, which is not 0.
    pub fn below(&mut self, bound: usize) -> usize {
        (self.next() % bound as u64) as usize
    }

    /// A number from `low` to `high`, both included.
    fn between(&mut self, low: usize, high: usize) -> usize {
        low + self.below(high - low + 1)
    }

    /// True in `percent` of a hundred cases.
    fn chance(&mut self, percent: usize) -> bool {
        self.below(100) < percent
    }

    fn pick<T: Copy>(&mut self, list: &[T]) -> T {
        list[self.below(list.len())]
    }

    fn shuffle<T>(&mut self, list: &mut [T]) {
        for end in (1..list.len()).rev() {
            list.swap(end, self.below(end + 1));
        }
    }
}

/// A variable and a value.
type Fact = (usize, usize);

/// A task as the generator sees it. In a sheet every size is 2, and conditions and goals have the value 1.
pub struct Task {
    sheet: bool,
    /// Sizes and start values.
    variables: Vec<(usize, usize)>,
    goals: Vec<Fact>,
    /// Conditions and effects.
    actions: Vec<(Vec<Fact>, Vec<Fact>)>,
}

pub struct Input {
    pub sheet: bool,
    pub bytes: Vec<u8>,
    /// The lines of a sitting, for a paper.
    pub calls: Vec<u8>,
    /// What kind of input it is, for the account.
    pub kind: &'static str,
}

/// How large a task is to be.
#[derive(Clone, Copy)]
struct Shape {
    variables: usize,
    most_size: usize,
    actions: usize,
    most_conditions: usize,
    most_effects: usize,
    goals: usize,
}

/// The input with this seed.
pub fn input(seed: u64) -> Input {
    let mut random = Random::new(seed);
    let sheet = random.chance(25);
    match random.below(4000) {
        0..=1 if !sheet => return longest_sitting(&mut random),
        0..=199 => {
            let bytes = noise(&mut random, sheet);
            return Input { sheet, bytes, calls: b"report\n".to_vec(), kind: "noise" };
        }
        200..=1199 => {
            let task = any_task(&mut random, sheet);
            let bytes = damage(&mut random, &task);
            let calls = sitting(&mut random, &task, 8);
            return Input { sheet, bytes, calls, kind: "damaged" };
        }
        _ => {}
    }
    let (task, kind) = match random.below(100) {
        0..=1 => (limit_task(&mut random, sheet), "limits"),
        2..=11 => (wild_task(&mut random, sheet), "wild"),
        12..=31 => (ladder(&mut random, sheet), "ladder"),
        32..=41 => {
            let shape = medium(&mut random, sheet);
            (grown_task(&mut random, sheet, shape), "medium")
        }
        _ => {
            let shape = small(&mut random, sheet);
            (grown_task(&mut random, sheet, shape), "small")
        }
    };
    let length = if random.chance(2) { random.between(400, 2000) } else { random.between(40, 140) };
    let calls = if sheet { Vec::new() } else { sitting(&mut random, &task, length) };
    Input { sheet, bytes: encode(&task), calls, kind }
}

fn small(random: &mut Random, sheet: bool) -> Shape {
    Shape {
        variables: random.between(1, 7),
        most_size: if sheet { 2 } else { random.between(1, 5) },
        actions: random.between(0, 16),
        most_conditions: 3,
        most_effects: 3,
        goals: random.between(0, 2),
    }
}

fn medium(random: &mut Random, sheet: bool) -> Shape {
    Shape {
        variables: random.between(6, 24),
        most_size: if sheet { 2 } else { random.between(2, 8) },
        actions: random.between(10, 80),
        most_conditions: random.between(1, 5),
        most_effects: random.between(1, 5),
        goals: random.between(1, 4),
    }
}

fn any_task(random: &mut Random, sheet: bool) -> Task {
    match random.below(20) {
        0 => limit_task(random, sheet),
        1..=2 => wild_task(random, sheet),
        3..=5 => {
            let shape = medium(random, sheet);
            grown_task(random, sheet, shape)
        }
        6..=8 => ladder(random, sheet),
        _ => {
            let shape = small(random, sheet);
            grown_task(random, sheet, shape)
        }
    }
}

/// Variables with at most 256 facts.
fn variables(random: &mut Random, sheet: bool, count: usize, most_size: usize) -> Vec<(usize, usize)> {
    let mut left = 256;
    let mut list = Vec::new();
    for number in 0..count {
        let others = count - number - 1;
        let size = if sheet { 2 } else { random.between(1, most_size).min(left - others) };
        left -= if sheet { 0 } else { size };
        let start = if random.chance(70) { 0 } else { random.below(size) };
        list.push((size, start));
    }
    list
}

fn add_once(list: &mut Vec<Fact>, fact: Fact) {
    if list.iter().all(|&(variable, _)| variable != fact.0) {
        list.push(fact);
    }
}

fn any_fact(random: &mut Random, variables: &[(usize, usize)]) -> Fact {
    let variable = random.below(variables.len());
    (variable, random.below(variables[variable].0))
}

/// A fact that a condition or goal can name.
fn nameable(sheet: bool, fact: Fact) -> bool {
    !sheet || fact.1 == 1
}

/// A task whose actions need facts that earlier actions have made reachable, so that most of it is in reach.
fn grown_task(random: &mut Random, sheet: bool, shape: Shape) -> Task {
    let variables = variables(random, sheet, shape.variables, shape.most_size);
    let mut reached: Vec<Fact> = variables.iter().enumerate().map(|(number, &(_, start))| (number, start)).collect();
    let everything: Vec<Fact> =
        variables.iter().enumerate().flat_map(|(number, &(size, _))| (0..size).map(move |value| (number, value))).collect();
    let mut actions: Vec<(Vec<Fact>, Vec<Fact>)> = Vec::new();
    // Conditions that many actions share.
    let mut shared: Vec<Fact> = Vec::new();
    for _ in 0..shape.actions {
        let mut conditions = Vec::new();
        let mut effects = Vec::new();
        let least = usize::from(random.chance(85));
        for _ in 0..random.between(least, shape.most_conditions) {
            let recent = reached.len().saturating_sub(4);
            let fact = match random.below(100) {
                0..=49 => reached[random.between(recent, reached.len() - 1)],
                50..=69 if !shared.is_empty() => random.pick(&shared),
                50..=94 => random.pick(&reached),
                _ => random.pick(&everything),
            };
            if nameable(sheet, fact) {
                add_once(&mut conditions, fact);
            }
        }
        if let Some(&fact) = conditions.last() {
            if random.chance(25) {
                shared.push(fact);
            }
        }
        let fresh: Vec<Fact> = everything.iter().copied().filter(|fact| !reached.contains(fact)).collect();
        let most = if random.chance(60) { 1 } else { shape.most_effects };
        let least = usize::from(random.chance(97));
        for _ in 0..random.between(least, most) {
            let fact = match random.below(100) {
                0..=54 if !fresh.is_empty() => random.pick(&fresh),
                0..=89 => random.pick(&reached),
                _ => random.pick(&everything),
            };
            add_once(&mut effects, fact);
        }
        if conditions.iter().all(|fact| reached.contains(fact)) {
            for &fact in &effects {
                if !reached.contains(&fact) {
                    reached.push(fact);
                }
            }
        }
        actions.push((conditions, effects));
    }
    if random.chance(60) {
        random.shuffle(&mut actions);
    }
    let mut goals = Vec::new();
    for _ in 0..shape.goals {
        let recent = reached.len().saturating_sub(3);
        let fact = match random.below(100) {
            0..=69 => reached[random.between(recent, reached.len() - 1)],
            70..=96 => random.pick(&reached),
            _ => random.pick(&everything),
        };
        if nameable(sheet, fact) {
            add_once(&mut goals, fact);
        }
    }
    Task { sheet, variables, goals, actions }
}

/// A long chain with second ways, undoing actions and shared conditions: many landmarks and orderings.
fn ladder(random: &mut Random, sheet: bool) -> Task {
    let count = random.between(2, 10);
    let size = if sheet { 2 } else { random.between(2, 4) };
    let variables: Vec<(usize, usize)> = (0..count).map(|_| (size, 0)).collect();
    // Rung k is the fact with value 1 of variable k, after it the value 2, and so on.
    let mut rungs: Vec<Fact> = (1..size).flat_map(|value| (0..count).map(move |variable| (variable, value))).collect();
    if random.chance(30) {
        random.shuffle(&mut rungs);
    }
    rungs.truncate(random.between(1, 14));
    let mut actions: Vec<(Vec<Fact>, Vec<Fact>)> = Vec::new();
    for (place, &rung) in rungs.iter().enumerate() {
        let ways = if random.chance(75) { 1 } else { random.between(2, 3) };
        for _ in 0..ways {
            let mut conditions = Vec::new();
            if place > 0 && random.chance(90) {
                conditions.push(rungs[place - 1]);
            }
            if place > 1 && random.chance(40) {
                add_once(&mut conditions, rungs[random.below(place)]);
            }
            if !sheet && random.chance(30) {
                add_once(&mut conditions, (random.below(count), 0));
            }
            let mut effects = vec![rung];
            if random.chance(15) {
                add_once(&mut effects, random.pick(&rungs));
            }
            if random.chance(15) {
                add_once(&mut effects, (random.below(count), 0));
            }
            actions.push((conditions, effects));
        }
    }
    // Ways back, and ways round that only later rungs open.
    for _ in 0..random.below(5) {
        let effect = if random.chance(60) { (random.below(count), 0) } else { random.pick(&rungs) };
        actions.push((vec![random.pick(&rungs)], vec![effect]));
    }
    if random.chance(50) {
        random.shuffle(&mut actions);
    }
    let mut goals = vec![rungs[rungs.len() - 1]];
    if random.chance(30) {
        add_once(&mut goals, random.pick(&rungs));
    }
    Task { sheet, variables, goals, actions }
}

/// Anything that is sound, without a thought for the goal.
fn wild_task(random: &mut Random, sheet: bool) -> Task {
    let count = random.between(1, 9);
    let variables = variables(random, sheet, count, if sheet { 2 } else { 6 });
    let mut actions = Vec::new();
    for _ in 0..random.below(20) {
        let (mut conditions, mut effects) = (Vec::new(), Vec::new());
        for _ in 0..random.below(4) {
            let fact = any_fact(random, &variables);
            if nameable(sheet, fact) {
                add_once(&mut conditions, fact);
            }
        }
        for _ in 0..random.below(5) {
            add_once(&mut effects, any_fact(random, &variables));
        }
        actions.push((conditions, effects));
    }
    let mut goals = Vec::new();
    for _ in 0..random.below(3) {
        let fact = any_fact(random, &variables);
        if nameable(sheet, fact) {
            add_once(&mut goals, fact);
        }
    }
    Task { sheet, variables, goals, actions }
}

/// A task at the limits: 64 variables or sizes of 16, 256 facts, up to 512 actions with up to 8 conditions and effects.
fn limit_task(random: &mut Random, sheet: bool) -> Task {
    let (count, size) = if sheet { (64, 2) } else { random.pick(&[(64, 4), (16, 16), (64, 3), (64, 1), (32, 8), (60, 4)]) };
    let actions = random.pick(&[512, 512, 511, 200, 64]);
    let most = random.pick(&[8, 8, 3, 1]);
    let goals = random.pick(&[1, 2, 8, 64]);
    let shape = Shape { variables: count, most_size: size, actions, most_conditions: most, most_effects: most, goals };
    let mut task = grown_task(random, sheet, shape);
    if !sheet {
        for variable in task.variables.iter_mut() {
            variable.0 = size;
        }
    }
    if random.chance(25) {
        fill(random, &mut task);
    } else if random.chance(30) {
        // One action with the full 8 and 8.
        let first = random.below(count - 8);
        let eight: Vec<Fact> = (first..first + 8).map(|variable| (variable, task.variables[variable].0 - 1)).collect();
        if let Some(last) = task.actions.last_mut() {
            *last = (eight.clone(), eight);
        }
    }
    task
}

/// Fills the lists up to 8 conditions and effects in every action, and a goal for every variable.
fn fill(random: &mut Random, task: &mut Task) {
    if task.sheet && random.chance(60) {
        task.variables.iter_mut().for_each(|variable| variable.1 = 1);
    }
    let count = task.variables.len();
    let named = |variable: usize, task: &Task| (variable, if task.sheet { 1 } else { task.variables[variable].1 });
    for action in 0..task.actions.len() {
        while task.actions[action].0.len() < 8 {
            let fact = named(random.below(count), task);
            add_once(&mut task.actions[action].0, fact);
        }
        while task.actions[action].1.len() < 8 {
            let fact = any_fact(random, &task.variables);
            add_once(&mut task.actions[action].1, fact);
        }
    }
    for variable in 0..count {
        let fact = named(variable, task);
        add_once(&mut task.goals, fact);
    }
}

// ---------------------------------------------------------------------------------------------------------------------------------
// Bytes
// ---------------------------------------------------------------------------------------------------------------------------------

fn encode(task: &Task) -> Vec<u8> {
    let mut records: Vec<[usize; 4]> = Vec::new();
    if task.sheet {
        records.extend(task.variables.iter().map(|&(_, start)| [6, start, 0, 0]));
        records.extend(task.goals.iter().map(|&(fact, _)| [7, fact, 0, 0]));
        for (conditions, effects) in &task.actions {
            records.push([8, 0, 0, 0]);
            records.extend(conditions.iter().map(|&(fact, _)| [9, fact, 0, 0]));
            let adds: Vec<usize> = effects.iter().filter(|effect| effect.1 == 1).map(|effect| effect.0).collect();
            let mut deletes: Vec<usize> = effects.iter().filter(|effect| effect.1 == 0).map(|effect| effect.0).collect();
            // Some facts are added and deleted at once.
            if adds.len() + deletes.len() < 8 && conditions.len() % 3 == 1 {
                deletes.extend(adds.last());
            }
            records.extend(adds.iter().map(|&fact| [10, fact, 0, 0]));
            records.extend(deletes.iter().map(|&fact| [11, fact, 0, 0]));
        }
    } else {
        records.extend(task.variables.iter().map(|&(size, start)| [1, size, start, 0]));
        records.extend(task.goals.iter().map(|&(variable, value)| [2, variable, value, 0]));
        for (conditions, effects) in &task.actions {
            records.push([3, 0, 0, 0]);
            records.extend(conditions.iter().map(|&(variable, value)| [4, variable, value, 0]));
            records.extend(effects.iter().map(|&(variable, value)| [5, variable, value, 0]));
        }
    }
    records.into_iter().flatten().map(|byte| byte as u8).collect()
}

/// Records of small numbers in any order.
fn noise(random: &mut Random, sheet: bool) -> Vec<u8> {
    let first = if sheet { 6 } else { 1 };
    let count = random.below(12);
    let mut bytes: Vec<u8> = Vec::new();
    for place in 0..count {
        let kind = match random.below(100) {
            0..=3 => random.below(256),
            4..=8 => random.below(13),
            _ if place < 2 => first,
            _ => first + random.below(if sheet { 6 } else { 5 }),
        };
        let unused = if random.chance(4) { random.below(4) } else { 0 };
        let (one, two) = match kind {
            3 | 8 => (0, 0),
            1 => (random.between(0, 17), random.below(3)),
            6.. => (random.below(3), 0),
            _ => (random.below(3), random.below(3)),
        };
        bytes.extend([kind as u8, one as u8, two as u8, unused as u8]);
    }
    if random.chance(10) {
        bytes.truncate(random.below(bytes.len() + 1));
    }
    bytes
}

/// The bytes of the task, with one or a few faults. Some faults happen to do no harm.
fn damage(random: &mut Random, task: &Task) -> Vec<u8> {
    let mut bytes = encode(task);
    for _ in 0..if random.chance(80) { 1 } else { 2 } {
        damage_once(random, task, &mut bytes);
    }
    bytes
}

fn damage_once(random: &mut Random, task: &Task, bytes: &mut Vec<u8>) {
    let records = bytes.len() / 4;
    if records == 0 {
        return bytes.push(random.below(256) as u8);
    }
    let record = random.below(records);
    let at = record * 4;
    let base = if task.sheet { 6 } else { 1 };
    let goals_from = task.variables.len() * 4;
    let actions_from = (task.variables.len() + task.goals.len()) * 4;
    match random.below(22) {
        // A byte changed: anywhere, to a small number, by one.
        0 => bytes[at + random.below(4)] = random.below(256) as u8,
        1 => bytes[at + random.below(3)] = random.below(20) as u8,
        2 => {
            let byte = &mut bytes[at + random.between(1, 2)];
            *byte = if random.chance(50) { byte.wrapping_add(1) } else { byte.wrapping_sub(1) };
        }
        3 => bytes[at + random.between(1, 3)] = random.between(1, 255) as u8,
        // Too short or too long.
        4 => bytes.truncate(random.below(bytes.len() + 1)),
        5 => bytes.truncate(at),
        6 => bytes.extend(std::iter::repeat_n(0, random.between(1, 4))),
        7 => bytes.resize(random.pick(&[35_324, 35_328, 35_329, 35_332, 40_000]), 0),
        // Records swapped, doubled, moved, lost.
        8 => {
            let other = random.below(records) * 4;
            for byte in 0..4 {
                bytes.swap(at + byte, other + byte);
            }
        }
        9 => {
            let copy: Vec<u8> = bytes[at..at + 4].to_vec();
            bytes.splice(at..at, copy);
        }
        10 => {
            let copy: Vec<u8> = bytes[at..at + 4].to_vec();
            let to = random.below(records + 1) * 4;
            bytes.splice(to..to, copy);
        }
        11 => drop(bytes.drain(at..at + 4)),
        12 if record + 1 < records => bytes[at..at + 8].rotate_left(4),
        // A record doubled with another value, and several bytes set.
        13 => {
            let copy = [bytes[at], bytes[at + 1], random.below(6) as u8, 0];
            bytes.splice(at + 4..at + 4, copy);
        }
        14 => (1..4).for_each(|byte| bytes[at + byte] = random.below(3) as u8),
        // A kind of the other form, or another kind of this one.
        15 => bytes[at] = if task.sheet { random.between(1, 5) } else { random.between(6, 11) } as u8,
        16 => bytes[at] = (base + random.below(if task.sheet { 6 } else { 5 })) as u8,
        // Past the limits: variables, facts, actions, conditions and effects.
        17 => {
            let missing = 64usize.saturating_sub(task.variables.len());
            let more = if random.chance(50) { missing + random.below(3) } else { random.between(1, 66) };
            let most = random.pick(&[1, 2, 5]);
            let variables: Vec<u8> = (0..more)
                .flat_map(|_| if task.sheet { [6, random.below(2) as u8, 0, 0] } else { [1, random.between(1, most) as u8, 0, 0] })
                .collect();
            if goals_from <= bytes.len() {
                bytes.splice(goals_from..goals_from, variables);
            }
        }
        18 if !task.sheet => {
            // Near 256 facts the size byte counts as it stands.
            let facts: usize = task.variables.iter().map(|variable| variable.0).sum();
            let mut left = random.pick(&[240, 239, 241, 255, 256, 250]) as isize - facts as isize;
            let mut variables: Vec<u8> = Vec::new();
            while left > 0 {
                let size = left.min(16);
                variables.extend([1, size as u8, 0, 0]);
                left -= size;
            }
            let sizes: [u8; 9] = [0, 1, 2, 15, 16, 17, 18, 100, 255];
            variables.extend([1, random.pick(&sizes), random.below(18) as u8, 0]);
            if goals_from <= bytes.len() {
                bytes.splice(goals_from..goals_from, variables);
            }
        }
        19 => {
            let more = random.pick(&[1, 511, 512, 513, 520]);
            bytes.extend((0..more).flat_map(|_| [base as u8 + 2, 0, 0, 0]));
        }
        _ => {
            // An action with about nine conditions or effects, of which some are named twice or are not there. There are variables
            // enough for most of them.
            let more: Vec<u8> = (task.variables.len()..9).flat_map(|_| [base as u8, if task.sheet { 0 } else { 1 }, 0, 0]).collect();
            let to = if random.chance(50) { actions_from + more.len() } else { bytes.len() + more.len() };
            if goals_from <= bytes.len() {
                bytes.splice(goals_from..goals_from, more);
            }
            let mut more = vec![base as u8 + 2, 0, 0, 0];
            let conditions = random.pick(&[0, 1, 7, 8, 9, 10]);
            let effects = random.pick(&[0, 1, 7, 8, 9, 10]);
            let adds = if task.sheet { random.below(effects + 1) } else { effects };
            for place in 0..conditions + effects {
                let (kind, place) = match place {
                    _ if place < conditions => (base + 3, place),
                    _ if place < conditions + adds => (base + 4, place - conditions),
                    _ => (base + 5, place - conditions),
                };
                let named = if random.chance(95) { place } else { random.below(12) };
                more.extend([kind as u8, named as u8, 0, 0]);
            }
            let to = to.min(bytes.len());
            bytes.splice(to..to, more);
        }
    }
}

// ---------------------------------------------------------------------------------------------------------------------------------
// Calls
// ---------------------------------------------------------------------------------------------------------------------------------

impl Task {
    /// Whether every goal is had when nothing is lost and no action gives the fact.
    fn goal_without(&self, fact: Fact) -> bool {
        let at_start = |&(size, start): &(usize, usize)| (0..size).map(|value| value == start).collect();
        let mut had: Vec<Vec<bool>> = self.variables.iter().map(at_start).collect();
        let mut grew = true;
        while grew {
            grew = false;
            for (conditions, effects) in &self.actions {
                if !effects.contains(&fact) && conditions.iter().all(|&(variable, value)| had[variable][value]) {
                    for &(variable, value) in effects {
                        grew |= !had[variable][value];
                        had[variable][value] = true;
                    }
                }
            }
        }
        self.goals.iter().all(|&(variable, value)| had[variable][value])
    }

    /// The facts outside the start that the goal cannot do without.
    fn needed(&self) -> Vec<Fact> {
        let effects = self.actions.iter().flat_map(|action| &action.1);
        let mut needed: Vec<Fact> = effects.copied().filter(|&(variable, value)| self.variables[variable].1 != value).collect();
        needed.sort();
        needed.dedup();
        needed.retain(|&fact| !self.goal_without(fact));
        needed
    }
}

/// Writes a call list and follows the state, so that most steps are allowed.
struct Calls<'a> {
    random: &'a mut Random,
    task: &'a Task,
    needed: Vec<Fact>,
    facts: usize,
    state: Vec<usize>,
    text: Vec<u8>,
    lines: usize,
}

impl Calls<'_> {
    fn number(&self, fact: Fact) -> usize {
        self.task.variables[..fact.0].iter().map(|variable| variable.0).sum::<usize>() + fact.1
    }

    fn line(&mut self, line: String) {
        let spaced = self.random.chance(3);
        if spaced {
            let apart = self.random.pick(&["  ", " \r", "\r", "   "]);
            let front = self.random.pick(&["", " ", "\r", "  "]);
            let back = self.random.pick(&["", " ", "\r", " \r "]);
            self.text.extend(format!("{front}{}{back}", line.replace(' ', apart)).bytes());
        } else {
            self.text.extend(line.bytes());
        }
        self.text.push(b'\n');
        self.lines += 1;
    }

    /// A number as it is, or seldom with zeros in front, or another one.
    fn word(&mut self, number: usize) -> String {
        match self.random.below(300) {
            0 => format!("00{number}"),
            1 => self.facts.to_string(),
            2 => (self.facts + self.random.below(10)).to_string(),
            3 => ["18446744073709551615", "18446744073709551616", "18446744073709551614", "4294967296", "4294967297"]
                [self.random.below(5)]
            .to_string(),
            4 => format!("{}{number}", "9".repeat(self.random.between(1, 60))),
            5 => format!("{}{number}", "0".repeat(self.random.between(1, 300))),
            6 => ["65536", "256", "257", "512", "511", "255"][self.random.below(6)].to_string(),
            _ => number.to_string(),
        }
    }

    fn propose(&mut self, fact: usize) {
        let word = self.word(fact);
        self.line(format!("propose {word}"));
    }

    fn order(&mut self, earlier: usize, later: usize) {
        let kind = if self.random.chance(97) { self.random.between(1, 2) } else { self.random.below(5) };
        let (kind, earlier, later) = (self.word(kind), self.word(earlier), self.word(later));
        self.line(format!("order {kind} {earlier} {later}"));
    }

    /// Orders a condition of some action before an effect of it, mostly a needed one, or sometimes any two facts.
    fn order_some(&mut self) {
        let wanted = if self.needed.is_empty() || self.random.chance(25) { None } else { Some(self.random.pick(&self.needed)) };
        let achievers: Vec<&(Vec<Fact>, Vec<Fact>)> = self
            .task
            .actions
            .iter()
            .filter(|(conditions, effects)| !conditions.is_empty() && !effects.is_empty())
            .filter(|(_, effects)| wanted.is_none_or(|fact| effects.contains(&fact)))
            .collect();
        if achievers.is_empty() || self.random.chance(10) {
            let (earlier, later) = (self.random.below(self.facts + 1), self.random.below(self.facts + 1));
            return self.order(earlier, later);
        }
        let (conditions, effects) = self.random.pick(&achievers);
        let (earlier, later) = (self.random.pick(conditions), wanted.unwrap_or(self.random.pick(effects)));
        self.order(self.number(earlier), self.number(later));
    }

    fn begin(&mut self) {
        self.state = self.task.variables.iter().map(|variable| variable.1).collect();
        self.line("begin".to_string());
    }

    fn step_some(&mut self) {
        let allowed: Vec<usize> = (0..self.task.actions.len())
            .filter(|&action| self.task.actions[action].0.iter().all(|&(variable, value)| self.state[variable] == value))
            .collect();
        let moving: Vec<usize> = allowed
            .iter()
            .copied()
            .filter(|&action| self.task.actions[action].1.iter().any(|&(variable, value)| self.state[variable] != value))
            .collect();
        let action = match self.random.below(100) {
            0..=69 if !moving.is_empty() => self.random.pick(&moving),
            0..=87 if !allowed.is_empty() => self.random.pick(&allowed),
            _ => self.random.below(self.task.actions.len() + 1),
        };
        if allowed.contains(&action) {
            for &(variable, value) in &self.task.actions[action].1 {
                self.state[variable] = value;
            }
        }
        let word = self.word(action);
        self.line(format!("step {word}"));
    }

    fn malformed(&mut self) {
        const LINES: [&[u8]; 36] = [
            b"", b" ", b"\r", b"propose", b"propose ", b"propose x", b"propose -1", b"propose +1", b"propose 1 2", b"propose 1x",
            b"propose\t1", b"\tpropose 1", b"propose 1\t", b"Propose 1", b"PROPOSE 1", b"order 1 2", b"order 1 2 3 4", b"order", b"begin 1",
            b"Begin", b"beginn", b"begi", b"step", b"step 0 0", b"step 0x1", b"step 1.0", b"report 1", b"reports", b"tally 0", b"held 0",
            b"\0", b"propose \xff", b"\xef\xbb\xbfbegin", b"order 1,2,3", b"# begin", b"propose1",
        ];
        let line = self.random.pick(&LINES);
        self.text.extend(line);
        self.text.push(b'\n');
        self.lines += 1;
    }

    fn some_call(&mut self) {
        match self.random.below(100) {
            0..=47 => self.step_some(),
            48..=63 => self.line("report".to_string()),
            64..=73 => {
                let fact = self.random.below(self.facts + 1);
                self.propose(fact);
            }
            74..=89 => self.order_some(),
            90..=91 => self.begin(),
            92..=94 => self.line("tally".to_string()),
            95..=97 => self.line("held".to_string()),
            _ => self.malformed(),
        }
    }
}

/// A call list of about the given number of lines.
fn sitting(random: &mut Random, task: &Task, length: usize) -> Vec<u8> {
    let facts = task.variables.iter().map(|variable| variable.0).sum();
    let state = task.variables.iter().map(|variable| variable.1).collect();
    let mut calls = Calls { random, task, needed: task.needed(), facts, state, text: Vec::new(), lines: 0 };
    if calls.random.chance(1) {
        return Vec::new();
    }
    if calls.random.chance(30) {
        for _ in 0..length / 5 {
            calls.some_call();
        }
    }
    if calls.random.chance(85) {
        let mut order: Vec<usize> = (0..facts).collect();
        if calls.random.chance(80) {
            calls.random.shuffle(&mut order);
        }
        order.truncate(length.max(20));
        for fact in order {
            calls.propose(fact);
            if calls.random.chance(4) {
                calls.some_call();
            }
        }
        for _ in 0..length / 4 {
            calls.order_some();
        }
        calls.line("held".to_string());
        if calls.random.chance(70) {
            calls.begin();
            calls.line("report".to_string());
        }
    }
    while calls.lines < length {
        calls.some_call();
    }
    for last in ["report", "tally", "held"] {
        calls.line(last.to_string());
    }
    if calls.random.chance(5) {
        calls.text.pop();
    }
    if calls.random.chance(1) {
        let digits = calls.random.between(1000, 70_000);
        calls.text.extend(b"\npropose ");
        calls.text.extend(std::iter::repeat_n(b'0', digits));
    }
    calls.text
}

/// A sitting past 65,535 steps or past 65,535 unconfirmed proposals.
fn longest_sitting(random: &mut Random) -> Input {
    let task = Task {
        sheet: false,
        variables: vec![(3, 0), (2, 0)],
        goals: vec![(1, 1)],
        actions: vec![(vec![], vec![(0, 1)]), (vec![(0, 1)], vec![(0, 0)]), (vec![], vec![(1, 1)]), (vec![(0, 2)], vec![(0, 0)])],
    };
    let mut text = String::new();
    if random.chance(50) {
        for count in 0..65_540 {
            text.push_str(if count % 2 == 0 { "step 0\n" } else { "step 1\n" });
        }
        text.push_str("step 3\nstep 4\nreport\nheld\nbegin\nstep 3\nstep 0\nreport\n");
    } else {
        for count in 0..65_540 {
            text.push_str(if count % 2 == 0 { "propose 1\n" } else { "propose 2\n" });
        }
        text.push_str("tally\npropose 4\norder 1 0 4\ntally\nreport\n");
    }
    Input { sheet: false, bytes: encode(&task), calls: text.into_bytes(), kind: "longest" }
}
