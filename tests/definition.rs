// Reads definition files and computes what they name: enough of the language for the tables of
// cases, which are numbers, lists, records and names applied to them.
//
// A name that no file read here defines stands for itself, applied to its arguments: the variants
// of requests and answers, and the tests of the definition that the limits cite.

use std::collections::HashMap;
use std::fs;
use std::path::{Path, PathBuf};
use std::rc::Rc;

#[derive(Clone, Debug, PartialEq)]
enum Token {
    Number(u128),
    Name(String),
    Field(String),
    Mark(char),
}

#[derive(Clone, Debug)]
pub enum Term {
    Number(u128),
    Name(String),
    Apply(Box<Term>, Vec<Term>),
    Operation(String, Box<Term>, Box<Term>),
    Lambda(String, Rc<Term>),
    Record(Vec<(String, Term)>),
    Field(Box<Term>, String),
}

#[derive(Clone, Debug)]
enum Pattern {
    Name(String),
    Variant(String, Vec<Pattern>),
}

/// A definition: its type as written, and its clauses.
#[derive(Default)]
struct Definition {
    kind: String,
    clauses: Vec<(Vec<Pattern>, Term)>,
}

#[derive(Default)]
struct Module {
    /// The module that each imported name comes from.
    imports: HashMap<String, String>,
    definitions: HashMap<String, Definition>,
}

/// Modules by their paths: `kinds.specs.Answer`.
pub struct Modules(HashMap<String, Module>);

#[derive(Clone)]
pub enum Value {
    Number(u128),
    List(Rc<Vec<Value>>),
    Record(Rc<Record>),
    Variant(String, Vec<Value>),
    Function(Rc<Function>, Vec<Value>),
}

#[derive(Clone)]
pub struct Record {
    fields: Vec<(String, Value)>,
    /// The list that the record stands in, and its place from 1.
    pub row: Option<String>,
}

pub enum Function {
    Defined { module: String, name: String, arity: usize },
    Given { name: String, arity: usize },
    Lambda { module: String, parameter: String, body: Rc<Term>, names: Names },
}

pub type Names = Vec<(String, Value)>;

// ---- Values ----

impl Value {
    pub fn number(&self) -> u128 {
        match self {
            Value::Number(n) => *n,
            _ => panic!("not a number"),
        }
    }

    pub fn word(&self) -> u64 {
        u64::try_from(self.number()).expect("wider than a word")
    }

    pub fn list(&self) -> &[Value] {
        match self {
            Value::List(items) => items,
            _ => panic!("not a list"),
        }
    }

    pub fn words(&self) -> Vec<u64> {
        self.list().iter().map(Value::word).collect()
    }

    pub fn record(&self) -> &Record {
        match self {
            Value::Record(record) => record,
            _ => panic!("not a record"),
        }
    }

    pub fn field(&self, name: &str) -> &Value {
        let found = self.record().fields.iter().find(|(field, _)| field == name);
        &found.unwrap_or_else(|| panic!("no field {name}")).1
    }

    pub fn variant(&self) -> (&str, &[Value]) {
        match self {
            Value::Variant(name, arguments) => (name, arguments),
            _ => panic!("not a variant"),
        }
    }
}

impl Record {
    pub fn has(&self, name: &str) -> bool {
        self.fields.iter().any(|(field, _)| field == name)
    }
}

// ---- Reading ----

fn tokens(text: &str) -> Vec<Token> {
    let mut found = Vec::new();
    let mut word = String::new();
    let mut closed = false;
    for c in text.chars().chain([' ']) {
        let mark = "(){};,".contains(c);
        if !mark && !c.is_whitespace() {
            word.push(c);
            continue;
        }
        if !word.is_empty() {
            found.extend(parts(&word, closed));
            word.clear();
        }
        if mark {
            found.push(Token::Mark(c));
        }
        closed = c == ')';
    }
    found
}

/// A number, or a name with the fields that stand on it: `x.f`. Fields alone stand on the
/// parenthesis that is closed before them: `(g x).f`.
fn parts(word: &str, closed: bool) -> Vec<Token> {
    let number = match word.strip_prefix("0x") {
        Some(digits) => u128::from_str_radix(digits, 16),
        None => word.parse(),
    };
    if let Ok(n) = number {
        return vec![Token::Number(n)];
    }
    // A lambda binds `x.`.
    if word.ends_with('.') {
        return vec![Token::Name(word.to_string())];
    }
    // «a» is the name a where the language has that word for itself.
    let plain = |part: &str| part.trim_matches(['«', '»']).to_string();
    let (name, fields) = word.split_once('.').unwrap_or((word, ""));
    assert!(closed || !name.is_empty(), "a field stands on nothing: {word}");
    let name = (!name.is_empty()).then(|| Token::Name(plain(name)));
    let fields = fields.split('.').filter(|field| !field.is_empty());
    name.into_iter().chain(fields.map(|field| Token::Field(plain(field)))).collect()
}

struct Reader {
    tokens: Vec<Token>,
    place: usize,
}

impl Reader {
    fn peek(&self) -> Option<&Token> {
        self.tokens.get(self.place)
    }

    fn take(&mut self) -> Token {
        self.place += 1;
        self.tokens.get(self.place - 1).cloned().expect("a definition ends too early")
    }

    fn at(&self, name: &str) -> bool {
        matches!(self.peek(), Some(Token::Name(found)) if found == name)
    }

    fn skip(&mut self, mark: char) -> bool {
        let there = self.peek() == Some(&Token::Mark(mark));
        self.place += usize::from(there);
        there
    }

    /// An operation of one of these names, or what binds closer; `right`: a b c is a (b c).
    fn operations(&mut self, names: &[&str], right: bool, closer: fn(&mut Reader) -> Term) -> Term {
        let mut left = closer(self);
        while let Some(name) = names.iter().find(|name| self.at(name)) {
            self.take();
            let second = if right { self.operations(names, right, closer) } else { closer(self) };
            left = Term::Operation(name.to_string(), Box::new(left), Box::new(second));
        }
        left
    }

    fn term(&mut self) -> Term {
        self.operations(&["∷", "++"], true, Reader::sum)
    }

    fn sum(&mut self) -> Term {
        self.operations(&["+", "-"], false, Reader::product)
    }

    fn product(&mut self) -> Term {
        self.operations(&["*", "/", "%"], false, Reader::power)
    }

    fn power(&mut self) -> Term {
        self.operations(&["^"], true, Reader::application)
    }

    fn application(&mut self) -> Term {
        let function = self.projection().expect("a term is missing");
        let mut arguments = Vec::new();
        while let Some(argument) = self.projection() {
            arguments.push(argument);
        }
        match arguments.is_empty() {
            true => function,
            false => Term::Apply(Box::new(function), arguments),
        }
    }

    /// An atom with the fields that stand on it.
    fn projection(&mut self) -> Option<Term> {
        let mut term = self.atom()?;
        while let Some(Token::Field(field)) = self.peek().cloned() {
            self.place += 1;
            term = Term::Field(Box::new(term), field);
        }
        Some(term)
    }

    fn atom(&mut self) -> Option<Term> {
        let start = self.place;
        match self.peek()?.clone() {
            Token::Number(n) => {
                self.place += 1;
                Some(Term::Number(n))
            }
            Token::Mark('(') => {
                self.place += 1;
                let term = self.term();
                assert!(self.skip(')'), "a parenthesis is not closed");
                Some(term)
            }
            Token::Name(name) if name == "λ" => {
                self.place += 1;
                let Token::Name(parameter) = self.take() else { panic!("a lambda has no name") };
                let parameter = parameter.strip_suffix('.').expect("a lambda of one name");
                Some(Term::Lambda(parameter.to_string(), Rc::new(self.term())))
            }
            Token::Name(name) if name == "record" => {
                self.place += 1;
                assert!(self.skip('{'), "a record is not opened");
                Some(Term::Record(self.fields()))
            }
            Token::Name(name)
                if !["∷", "++", "+", "-", "*", "/", "%", "^", "="].contains(&&*name) =>
            {
                self.place += 1;
                Some(Term::Name(name))
            }
            _ => {
                self.place = start;
                None
            }
        }
    }

    fn fields(&mut self) -> Vec<(String, Term)> {
        let mut fields = Vec::new();
        while !self.skip('}') {
            let name = match self.take() {
                Token::Name(name) => name,
                Token::Number(n) => n.to_string(),
                _ => panic!("a field has no name"),
            };
            assert!(self.at("="), "the field {name} has no value");
            self.take();
            fields.push((name, self.term()));
            self.skip(';');
        }
        fields
    }

    fn pattern(&mut self) -> Pattern {
        if self.skip('(') {
            let Token::Name(name) = self.take() else { panic!("a pattern has no name") };
            let mut parts = Vec::new();
            while !self.skip(')') {
                parts.push(self.pattern());
            }
            return Pattern::Variant(name, parts);
        }
        match self.take() {
            Token::Name(name) if name == "zero" || name.starts_with(char::is_uppercase) => {
                Pattern::Variant(name, Vec::new())
            }
            Token::Name(name) => Pattern::Name(name),
            _ => panic!("a pattern of another form"),
        }
    }
}

/// The parts of a file that start at the margin, without comments.
fn items(text: &str) -> Vec<String> {
    let mut items: Vec<String> = Vec::new();
    for line in text.lines().filter(|line| !line.trim_start().starts_with("--")) {
        match items.last_mut() {
            Some(item) if line.is_empty() || line.starts_with([' ', '}']) => {
                item.push(' ');
                item.push_str(line);
            }
            _ if line.is_empty() => {}
            _ => items.push(line.to_string()),
        }
    }
    items
}

impl Module {
    /// The whole file, or the numbers that it names.
    fn read(text: &str, whole: bool) -> Module {
        let mut module = Module::default();
        for item in items(text) {
            let words: Vec<&str> = item.split_whitespace().collect();
            if let Some(path) = item.strip_prefix("use ") {
                if let Some((path, names)) = path.split_once(".{") {
                    let from = path.strip_prefix("Rattle.").unwrap_or(path);
                    for name in names.trim_end().trim_end_matches('}').split(", ") {
                        module.imports.insert(name.to_string(), from.to_string());
                    }
                }
            } else if let ["abbrev" | "unfoldable", "pub", name, ":", ..] = words[..] {
                let kind = item.split_once(" : ").map_or("", |(_, kind)| kind.trim());
                if whole || kind == "ℕ" {
                    module.definitions.entry(name.to_string()).or_default().kind = kind.to_string();
                }
            } else if module.definitions.contains_key(words[0]) {
                let mut reader = Reader { tokens: tokens(&item), place: 1 };
                let mut patterns = Vec::new();
                while !reader.at("=") {
                    patterns.push(reader.pattern());
                }
                reader.take();
                let term = reader.term();
                assert!(reader.peek().is_none(), "a definition of another form: {item}");
                let definition = module.definitions.get_mut(words[0]);
                definition.expect("declared").clauses.push((patterns, term));
            }
        }
        module
    }
}

// ---- Computing ----

impl Modules {
    /// The modules of these paths and those that they import from, where the folder of the crates
    /// has them; of one that is neither a root nor wanted, its numbers alone.
    pub fn read(crates: &Path, roots: &[&str], wanted: fn(&str) -> bool) -> Modules {
        let file = |name: &str| -> Option<PathBuf> {
            let file = crates.join(format!("{}.antt", name.replace('.', "/")));
            file.exists().then_some(file)
        };
        let mut modules = Modules(HashMap::new());
        let mut open: Vec<String> = roots.iter().map(|name| name.to_string()).collect();
        while let Some(name) = open.pop() {
            if modules.0.contains_key(&name) {
                continue;
            }
            let path = file(&name).unwrap_or_else(|| panic!("no module {name}"));
            let text = fs::read_to_string(&path)
                .unwrap_or_else(|error| panic!("{}: {error}", path.display()));
            let module = Module::read(&text, roots.contains(&&*name) || wanted(&name));
            open.extend(module.imports.values().filter(|name| file(name).is_some()).cloned());
            modules.0.insert(name, module);
        }
        modules
    }

    /// What a name of a module stands for.
    pub fn value(&self, module: &str, name: &str) -> Value {
        self.named(module, &Vec::new(), name)
    }

    fn definition(&self, module: &str, name: &str) -> Option<(&str, &Definition)> {
        let (module, found) = self.0.get_key_value(module)?;
        found.definitions.get(name).map(|definition| (&**module, definition))
    }

    fn named(&self, module: &str, names: &Names, name: &str) -> Value {
        if let Some((_, value)) = names.iter().rev().find(|(known, _)| known == name) {
            return value.clone();
        }
        let imported = || self.definition(self.0[module].imports.get(name)?, name);
        if let Some((module, definition)) = self.definition(module, name).or_else(imported) {
            let arity = definition.clauses[0].0.len();
            let function =
                Function::Defined { module: module.to_string(), name: name.to_string(), arity };
            if arity > 0 {
                return Value::Function(Rc::new(function), Vec::new());
            }
            let value = self.call(&function, Vec::new());
            return match &*definition.kind {
                "List Case" | "List Limit" => rows(name, &value),
                _ => value,
            };
        }
        let arity = match name {
            "[]" => return Value::List(Rc::new(Vec::new())),
            "suc" => 1,
            "map" | "replicate" | "eqb" => 2,
            "set" | "cond" => 3,
            _ => return Value::Variant(name.to_string(), Vec::new()),
        };
        Value::Function(Rc::new(Function::Given { name: name.to_string(), arity }), Vec::new())
    }

    pub fn apply(&self, function: Value, argument: Value) -> Value {
        match function {
            Value::Variant(name, mut arguments) => {
                arguments.push(argument);
                Value::Variant(name, arguments)
            }
            Value::Function(function, mut arguments) => {
                arguments.push(argument);
                let arity = match &*function {
                    Function::Defined { arity, .. } | Function::Given { arity, .. } => *arity,
                    Function::Lambda { .. } => 1,
                };
                if arguments.len() < arity {
                    return Value::Function(function, arguments);
                }
                self.call(&function, arguments)
            }
            _ => panic!("applied, and no function"),
        }
    }

    fn call(&self, function: &Function, arguments: Vec<Value>) -> Value {
        match function {
            Function::Defined { module, name, .. } => {
                let (_, definition) = self.definition(module, name).expect("defined");
                for (patterns, term) in &definition.clauses {
                    let mut names = Vec::new();
                    let mut pairs = patterns.iter().zip(&arguments);
                    if pairs.all(|(pattern, value)| matches(pattern, value, &mut names)) {
                        return self.compute(module, &names, term);
                    }
                }
                panic!("{name} has no clause for its arguments")
            }
            Function::Given { name, .. } => self.given(name, &arguments),
            Function::Lambda { module, parameter, body, names } => {
                let mut names = names.clone();
                names.push((parameter.clone(), arguments[0].clone()));
                self.compute(module, &names, body)
            }
        }
    }

    fn given(&self, name: &str, arguments: &[Value]) -> Value {
        let items = match name {
            "suc" => return Value::Number(arguments[0].number() + 1),
            "eqb" => {
                let equal = arguments[0].number() == arguments[1].number();
                return Value::Variant(equal.to_string(), Vec::new());
            }
            "cond" => {
                let holds = arguments[0].variant().0 == "true";
                return arguments[if holds { 1 } else { 2 }].clone();
            }
            "replicate" => vec![arguments[1].clone(); arguments[0].number() as usize],
            "set" => {
                let mut items = arguments[0].list().to_vec();
                if let Some(item) = items.get_mut(arguments[1].number() as usize) {
                    *item = arguments[2].clone();
                }
                items
            }
            _ => {
                let items = arguments[1].list().iter();
                items.map(|item| self.apply(arguments[0].clone(), item.clone())).collect()
            }
        };
        Value::List(Rc::new(items))
    }

    fn compute(&self, module: &str, names: &Names, term: &Term) -> Value {
        let of = |term: &Term| self.compute(module, names, term);
        match term {
            Term::Number(n) => Value::Number(*n),
            Term::Name(name) => self.named(module, names, name),
            Term::Apply(function, arguments) => {
                arguments.iter().fold(of(function), |function, item| self.apply(function, of(item)))
            }
            Term::Operation(name, left, right) => operation(name, of(left), of(right)),
            Term::Lambda(parameter, body) => {
                let function = Function::Lambda {
                    module: module.to_string(),
                    parameter: parameter.clone(),
                    body: body.clone(),
                    names: names.clone(),
                };
                Value::Function(Rc::new(function), Vec::new())
            }
            Term::Record(fields) => {
                let fields = fields.iter().map(|(name, term)| (name.clone(), of(term))).collect();
                Value::Record(Rc::new(Record { fields, row: None }))
            }
            Term::Field(record, name) => of(record).field(name).clone(),
        }
    }
}

fn matches(pattern: &Pattern, value: &Value, names: &mut Names) -> bool {
    match (pattern, value) {
        (Pattern::Name(name), _) => {
            names.push((name.clone(), value.clone()));
            true
        }
        (Pattern::Variant(name, parts), Value::Number(n)) => match (&**name, n.checked_sub(1)) {
            ("zero", None) => true,
            ("suc", Some(less)) => matches(&parts[0], &Value::Number(less), names),
            _ => false,
        },
        (Pattern::Variant(name, parts), Value::Variant(found, values)) => {
            name == found
                && parts.len() == values.len()
                && parts.iter().zip(values).all(|(part, value)| matches(part, value, names))
        }
        _ => false,
    }
}

fn operation(name: &str, left: Value, right: Value) -> Value {
    let items = match name {
        "∷" => [&[left], right.list()].concat(),
        "++" => [left.list(), right.list()].concat(),
        _ => {
            let (a, b) = (left.number(), right.number());
            let power = || a.checked_pow(u32::try_from(b).ok()?);
            let result = match name {
                "+" => a.checked_add(b),
                "-" => Some(a.saturating_sub(b)),
                "*" => a.checked_mul(b),
                "/" => Some(a.checked_div(b).unwrap_or(0)),
                "%" => Some(a.checked_rem(b).unwrap_or(a)),
                _ => power(),
            };
            return Value::Number(result.expect("a number over 128 bits"));
        }
    };
    Value::List(Rc::new(items))
}

/// The rows of a list, each under the name of the innermost list that has it.
fn rows(list: &str, value: &Value) -> Value {
    let mut items = value.list().to_vec();
    for (place, item) in items.iter_mut().enumerate() {
        let mut record = item.record().clone();
        record.row.get_or_insert_with(|| format!("{list} {}", place + 1));
        *item = Value::Record(Rc::new(record));
    }
    Value::List(Rc::new(items))
}
