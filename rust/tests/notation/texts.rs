//! Random texts in the notation, each with the bytes that it must give. The numbers are worked out here: facts, rules
//! and starts in the order of the text, nodes in the order in which their text ends, those of starts after all others.

use sheets::{Rng, ASK, BOTH, EITHER, STOP, TELL};

/// The words of the notation, which are no names.
pub const WORDS: [&str; 17] = [
    "and", "ask", "at", "both", "call", "either", "fact", "gives", "node", "nothing", "or", "rule", "run", "start",
    "stop", "tell", "then",
];

/// A text and what it says.
pub struct Made {
    pub text: String,
    pub bytes: Vec<u8>,
    /// The names of the facts, of the nodes (none for a node that stands where it is used) and of the starts.
    pub facts: Vec<String>,
    pub nodes: Vec<Option<String>>,
    pub starts: Vec<String>,
}

/// A random text.
pub fn text(rng: &mut Rng) -> Made {
    Maker::new(rng).made()
}

/// What stands in a text: a word that begins a statement, another word, or something that needs no blank around it.
enum Token {
    Statement(&'static str),
    Word(String),
    Other(String),
}

struct Fact {
    name: String,
    quoted: Option<String>,
}

/// A node that is named or numbered.
enum Use {
    Name(String),
    Number(usize),
}

struct Node {
    name: Option<String>,
    kind: u8,
    set: u16,
    uses: Vec<Use>,
    /// How many threads it opens to.
    threads: usize,
}

/// A statement to come.
#[derive(Clone, Copy, PartialEq)]
enum Statement {
    Facts(usize),
    Rule,
    Node,
    Start,
}

struct Maker<'a> {
    rng: &'a mut Rng,
    facts: Vec<Fact>,
    /// The names of the nodes that get a statement each, and how many of these have ended.
    node_names: Vec<String>,
    ended: usize,
    /// How many nodes may stand where they are used.
    left: usize,
    tokens: Vec<Token>,
    rules: Vec<(u16, u16)>,
    nodes: Vec<Node>,
    starts: Vec<(String, u16, Vec<Use>)>,
}

impl Maker<'_> {
    fn new(rng: &mut Rng) -> Maker<'_> {
        let mut facts: Vec<Fact> = vec![];
        let mut names = vec![];
        let most = rng.pick(&[0, 2, 5, 12]);
        for _ in 0..rng.below(most + 1) {
            let name = new_name(rng, &names);
            let quoted = (name.len() > 8 || rng.percent(35)).then(|| sheet_name(rng, &name));
            names.push(name.clone());
            facts.push(Fact { name, quoted });
        }
        let most = rng.pick(&[1, 4, 12, 64]);
        let mut node_names = vec![];
        for _ in 0..rng.below(most + 1) {
            node_names.push(new_name(rng, &node_names));
        }
        let left = rng.below(64 - node_names.len() + 1).max(usize::from(node_names.is_empty()));
        Maker { rng, facts, node_names, ended: 0, left, tokens: vec![], rules: vec![], nodes: vec![], starts: vec![] }
    }

    fn made(mut self) -> Made {
        let order = self.order();
        let mut facts = 0;
        let mut of_starts = vec![];
        for (at, &statement) in order.iter().enumerate() {
            match statement {
                Statement::Facts(count) => {
                    self.fact_statement(facts, count);
                    facts += count;
                }
                Statement::Rule => self.rule_statement(),
                Statement::Node => self.node_statement(),
                Statement::Start => {
                    let before = self.nodes.len();
                    self.start_statement(!order[at + 1..].contains(&Statement::Start));
                    of_starts.extend(before..self.nodes.len());
                }
            }
        }
        self.put_behind(&of_starts);
        Made {
            text: laid_out(&self.tokens, self.rng),
            bytes: self.bytes(),
            facts: self.facts.into_iter().map(|fact| fact.name).collect(),
            nodes: self.nodes.into_iter().map(|node| node.name).collect(),
            starts: self.starts.into_iter().map(|start| start.0).collect(),
        }
    }

    /// Numbers these nodes after all others.
    fn put_behind(&mut self, of_starts: &[usize]) {
        let others = (0..self.nodes.len()).filter(|number| !of_starts.contains(number));
        let order: Vec<usize> = others.chain(of_starts.iter().copied()).collect();
        let mut nodes: Vec<Option<Node>> = self.nodes.drain(..).map(Some).collect();
        self.nodes = order.iter().map(|&number| nodes[number].take().unwrap()).collect();
        let uses = self.nodes.iter_mut().flat_map(|node| &mut node.uses);
        for one in uses.chain(self.starts.iter_mut().flat_map(|start| &mut start.2)) {
            if let Use::Number(number) = one {
                *number = order.iter().position(|own| own == number).unwrap();
            }
        }
    }

    /// The statements of the text, often in any order.
    fn order(&mut self) -> Vec<Statement> {
        let mut order = vec![];
        let mut facts = self.facts.len();
        while facts > 0 {
            let count = 1 + self.rng.below(facts);
            order.push(Statement::Facts(count));
            facts -= count;
        }
        let rules = self.rng.pick(&[0, 3, 32]);
        order.extend((0..self.rng.below(rules + 1)).map(|_| Statement::Rule));
        order.extend(self.node_names.iter().map(|_| Statement::Node));
        let starts = self.rng.pick(&[2, 2, 4, 16]);
        order.extend((0..self.rng.within((2, starts))).map(|_| Statement::Start));
        if self.rng.percent(60) {
            self.rng.shuffle(&mut order);
        }
        order
    }

    fn word(&mut self, word: &str) {
        self.tokens.push(Token::Word(word.to_string()));
    }

    fn mark(&mut self, mark: char) {
        self.tokens.push(Token::Other(mark.to_string()));
    }

    fn fact_statement(&mut self, from: usize, count: usize) {
        self.tokens.push(Token::Statement("fact"));
        for fact in from..from + count {
            if fact > from {
                self.mark(',');
            }
            let Fact { name, quoted } = &self.facts[fact];
            self.tokens.push(Token::Word(name.clone()));
            if let Some(quoted) = quoted {
                let escaped: String = quoted.chars().flat_map(escaped).collect();
                self.tokens.push(Token::Other(format!("\"{escaped}\"")));
            }
        }
    }

    fn rule_statement(&mut self) {
        self.tokens.push(Token::Statement("rule"));
        let premise = self.set();
        self.word("gives");
        let conclusion = self.set();
        self.rules.push((premise, conclusion));
    }

    /// Writes a set, its facts in any order, and gives its number.
    fn set(&mut self) -> u16 {
        let most = self.rng.pick(&[1, 2, 12]);
        let set = self.rng.set(self.facts.len(), most);
        let mut names: Vec<String> = vec![];
        for (number, fact) in self.facts.iter().enumerate() {
            if set >> number & 1 == 1 {
                names.push(fact.name.clone());
            }
        }
        self.rng.shuffle(&mut names);
        match names.len() {
            0 if self.rng.percent(80) => self.word("nothing"),
            1 if self.rng.percent(80) => self.word(&names[0]),
            _ => {
                self.mark('{');
                for (place, name) in names.iter().enumerate() {
                    if place > 0 {
                        self.mark(',');
                    }
                    self.word(name);
                }
                self.mark('}');
            }
        }
        set
    }

    fn node_statement(&mut self) {
        self.tokens.push(Token::Statement("node"));
        let name = self.node_names[self.ended].clone();
        self.word(&name);
        self.mark('=');
        let parentheses = self.opening(0);
        let number = self.process(8, parentheses + 1);
        self.closing(parentheses);
        self.nodes[number].name = Some(name);
        self.ended += 1;
    }

    fn start_statement(&mut self, last: bool) {
        self.tokens.push(Token::Statement("start"));
        let taken: Vec<String> = self.starts.iter().map(|start| start.0.clone()).collect();
        let name = new_name(self.rng, &taken);
        self.word(&name);
        self.word("at");
        let store = self.set();
        let needed = last && self.nodes.is_empty() && self.node_names.is_empty();
        let most = self.rng.pick(&[1, 3, 8]);
        let count = self.rng.below(most + 1).max(usize::from(needed));
        let mut uses = vec![];
        let mut room = 8;
        if !self.node_names.is_empty() && self.rng.percent(20) {
            // One node alone, which may come later: every node has at most eight threads.
            self.word("run");
            uses.push(self.any_named(0));
            room = 0;
        }
        for _ in 0..count {
            if room == 0 || self.left == 0 && self.fitting(room).is_empty() {
                break;
            }
            if uses.is_empty() {
                self.word("run");
            } else {
                self.mark(',');
            }
            let (used, threads) = self.used(room, 0);
            room -= threads;
            uses.push(used);
        }
        self.starts.push((name, store, uses));
    }

    /// The names of the nodes that have ended and have at most so many threads, and how many they have.
    fn fitting(&self, room: usize) -> Vec<(String, usize)> {
        let fitting = self.nodes.iter().filter(|node| node.threads <= room);
        fitting.filter_map(|node| Some((node.name.clone()?, node.threads))).collect()
    }

    /// Writes some parentheses, not too deep inside others, and gives how many.
    fn opening(&mut self, depth: usize) -> usize {
        let count = if depth < 55 && self.rng.percent(40) { 1 + self.rng.below(3) } else { 0 };
        (0..count).for_each(|_| self.mark('('));
        count
    }

    fn closing(&mut self, count: usize) {
        (0..count).for_each(|_| self.mark(')'));
    }

    /// Writes a node of at most so many threads, by name or itself, and gives it and its threads. There must be one.
    fn used(&mut self, room: usize, depth: usize) -> (Use, usize) {
        let parentheses = self.opening(depth);
        let mut fitting = self.fitting(room);
        let found = if !fitting.is_empty() && (self.left == 0 || self.rng.percent(45)) {
            let (name, threads) = fitting.swap_remove(self.rng.below(fitting.len()));
            self.word(&name);
            (Use::Name(name), threads)
        } else {
            self.left -= 1;
            let number = self.process(room, depth + parentheses + 1);
            (Use::Number(number), self.nodes[number].threads)
        };
        self.closing(parentheses);
        found
    }

    /// Writes the node that an ask goes on as: any named node, itself and later ones too, or one that stands there.
    fn next(&mut self, depth: usize) -> Use {
        if self.left > 0 && (self.node_names.is_empty() || self.rng.percent(50)) {
            return self.used(8, depth).0;
        }
        self.any_named(depth)
    }

    /// Writes the name of any node that has one.
    fn any_named(&mut self, depth: usize) -> Use {
        let parentheses = self.opening(depth);
        let name = self.node_names[self.rng.below(self.node_names.len())].clone();
        self.word(&name);
        self.closing(parentheses);
        Use::Name(name)
    }

    /// Writes a node of at most so many threads and gives its number.
    fn process(&mut self, room: usize, depth: usize) -> usize {
        let (mut set, mut uses) = (0, vec![]);
        let mut threads = 1;
        let kind = self.kind(room);
        self.word(["stop", "tell", "ask", "both", "either"][kind as usize]);
        match kind {
            STOP => threads = 0,
            TELL => set = self.set(),
            ASK => {
                set = self.set();
                self.word("then");
                uses.push(self.next(depth));
            }
            BOTH => {
                let (first, second) = self.two(room, "and", depth);
                threads = first.1 + second.1;
                uses = vec![first.0, second.0];
            }
            _ => {
                let (first, second) = self.two(8, "or", depth);
                uses = vec![first.0, second.0];
            }
        }
        self.nodes.push(Node { name: None, kind, set, uses, threads });
        self.nodes.len() - 1
    }

    /// A kind for which there is what it needs.
    fn kind(&mut self, room: usize) -> u8 {
        loop {
            let kind = self.rng.pick(&[STOP, TELL, TELL, ASK, ASK, ASK, BOTH, BOTH, EITHER, EITHER]);
            let possible = match kind {
                STOP => true,
                TELL => room > 0,
                ASK => room > 0 && (self.left > 0 || !self.node_names.is_empty()),
                BOTH => self.left >= 2,
                _ => room > 0 && (self.left >= 2 || self.ended > 0),
            };
            if possible {
                return kind;
            }
        }
    }

    /// Writes two nodes with a word between them. For a both the threads of the second are counted with the first's.
    fn two(&mut self, room: usize, word: &str, depth: usize) -> ((Use, usize), (Use, usize)) {
        let kept = usize::from(self.left > 0);
        self.left -= kept;
        let first = self.used(room, depth);
        self.left += kept;
        self.word(word);
        let room = if word == "and" { room - first.1 } else { room };
        let second = self.used(room, depth);
        (first, second)
    }

    fn number(&self, used: &Use) -> usize {
        match used {
            Use::Number(number) => *number,
            Use::Name(name) => self.nodes.iter().position(|node| node.name.as_ref() == Some(name)).unwrap(),
        }
    }

    fn bytes(&self) -> Vec<u8> {
        let mut bytes = vec![self.facts.len() as u8];
        for fact in &self.facts {
            bytes.extend(format!("{:8}", fact.quoted.as_ref().unwrap_or(&fact.name)).bytes());
        }
        bytes.push(self.rules.len() as u8);
        for (premise, conclusion) in &self.rules {
            bytes.extend(premise.to_le_bytes());
            bytes.extend(conclusion.to_le_bytes());
        }
        bytes.push(self.nodes.len() as u8);
        for node in &self.nodes {
            let uses: Vec<u16> = node.uses.iter().map(|used| self.number(used) as u16).collect();
            let (first, second) = match node.kind {
                STOP => (0, 0),
                TELL => (node.set, 0),
                ASK => (node.set, uses[0]),
                _ => (uses[0], uses[1]),
            };
            bytes.push(node.kind);
            bytes.extend(first.to_le_bytes());
            bytes.extend(second.to_le_bytes());
        }
        bytes.push(self.starts.len() as u8);
        for (_, store, uses) in &self.starts {
            bytes.extend(store.to_le_bytes());
            bytes.push(uses.len() as u8);
            bytes.extend(uses.iter().map(|used| self.number(used) as u8));
        }
        bytes
    }
}

/// A character as it stands in quotes.
fn escaped(c: char) -> Vec<char> {
    match c {
        '"' | '\\' => vec!['\\', c],
        c => vec![c],
    }
}

/// Names like those that are given to what has none, and names that are nearly words of the notation.
const NAMES: [&str; 30] = [
    "n0", "n1", "n1_", "n2", "n2_", "n2__", "n3", "n12", "f0", "f1", "f1_", "f2", "s0", "s1", "s1_", "stop_", "Tell",
    "ASK", "nothing1", "and-", "call-", "facts", "_", "__", "_-", "x-1", "a", "b", "door", "lamp",
];

/// A name that is not taken.
fn new_name(rng: &mut Rng, taken: &[String]) -> String {
    loop {
        let length = rng.pick(&[1, 2, 5, 8, 9, 30]);
        let mut name = match rng.percent(30) {
            true => rng.pick(&NAMES).to_string(),
            false => (rng.pick(b"abcdefgxyzABCXYZ_") as char).to_string(),
        };
        while name.len() < length && rng.percent(90) {
            name.push(rng.pick(b"abcdefxyzABCXYZ_-0123456789") as char);
        }
        if !taken.contains(&name) && !WORDS.contains(&name.as_str()) {
            return name;
        }
    }
}

/// A name on the sheet: up to eight characters from 32 to 126, or the first eight of the fact's own name.
fn sheet_name(rng: &mut Rng, name: &str) -> String {
    if rng.percent(15) {
        return name.chars().take(8).collect();
    }
    let signs = rng.percent(30);
    let length = rng.below(9);
    (0..length).map(|_| if signs { rng.pick(b" \"\\#{}(),=") } else { rng.within((32, 126)) as u8 } as char).collect()
}

/// The tokens as a text, with blanks, line ends and comments between them.
fn laid_out(tokens: &[Token], rng: &mut Rng) -> String {
    let line_end = rng.pick(&["\n", "\n", "\r\n"]);
    let wild = rng.pick(&[0, 0, 10, 50]);
    let mut text = String::new();
    let mut after_word = false;
    for token in tokens {
        let (word, is_word) = match token {
            Token::Statement(word) => (*word, true),
            Token::Word(word) => (word.as_str(), true),
            Token::Other(other) => (other.as_str(), false),
        };
        if matches!(token, Token::Statement(_)) && !rng.percent(wild / 5) {
            text += between_statements(line_end, rng).as_str();
        } else {
            let gap = if rng.percent(wild) { gap(line_end, rng) } else { " ".to_string() };
            text += if gap.is_empty() && after_word && is_word { "\t" } else { &gap };
        }
        text += word;
        after_word = is_word;
    }
    match rng.below(4) {
        0 => {}
        1 => text += &format!(" # {}", comment(rng)),
        2 => text += " \t ",
        _ => text += line_end,
    }
    text
}

/// Ends a line, with a comment or without, and sometimes adds blank lines and lines with a comment.
fn between_statements(line_end: &str, rng: &mut Rng) -> String {
    let mut text = String::new();
    if rng.percent(10) {
        text += &format!(" # {}", comment(rng));
    }
    text += line_end;
    while rng.percent(15) {
        match rng.below(3) {
            0 => text += "\t ",
            1 => text += &format!("# {}", comment(rng)),
            _ => {}
        }
        text += line_end;
    }
    text
}

/// What may stand between two tokens.
fn gap(line_end: &str, rng: &mut Rng) -> String {
    match rng.below(8) {
        0 | 1 => String::new(),
        2 => "   ".to_string(),
        3 => "\t".to_string(),
        4 => format!("{line_end}    "),
        5 => format!(" # {}{line_end}", comment(rng)),
        6 => "\r\n".to_string(),
        _ => format!("{line_end}{line_end}"),
    }
}

/// The text of a comment: anything but a line end.
fn comment(rng: &mut Rng) -> String {
    let parts =
        ["node", "fact a, b", "\"", "\\", "#", "=", "(", "}", "é", "∀x", "\t", "\u{1}", " ", "größer", "🙂", "1"];
    let length = rng.below(6);
    (0..length).map(|_| rng.pick(&parts)).collect()
}
