//! The worked cases are proved of Volume V as a definition writes it down, run by the program
//! `vectors` on its input, and tested on the sample. This test reads the definition's text and sees
//! that all three are the same bytes.

use std::collections::HashMap;
use std::path::Path;

/// What an expression of the definition is.
#[derive(Clone)]
enum Value {
    Number(usize),
    List(Vec<Value>),
}

impl Value {
    fn number(self) -> usize {
        match self {
            Value::Number(n) => n,
            Value::List(_) => panic!("a number was expected, and a list was found"),
        }
    }

    fn list(self) -> Vec<Value> {
        match self {
            Value::List(l) => l,
            Value::Number(n) => panic!("a list was expected, and {n} was found"),
        }
    }
}

/// A definition: its parameters, and the tokens of its right side.
struct Definition {
    parameters: Vec<String>,
    body: Vec<String>,
}

/// The definitions of a file, without those that are built in here.
fn definitions(text: &str) -> HashMap<String, Definition> {
    let mut found: HashMap<String, Definition> = HashMap::new();
    let mut current = None;
    for line in text.lines() {
        let line = line.split("-- ").next().unwrap_or("");
        let tokens = tokens(line);
        let equals = tokens.iter().position(|t| t == "=");
        if line.starts_with("use ") || line.starts_with("unfoldable ") {
            current = None;
        } else if let (false, Some(equals)) = (line.starts_with(' '), equals) {
            let name = tokens[0].clone();
            let parameters = tokens[1..equals].to_vec();
            let body = tokens[equals + 1..].to_vec();
            found.insert(name.clone(), Definition { parameters, body });
            current = Some(name);
        } else if let Some(name) = &current {
            let definition = found.get_mut(name).expect("the definition was begun");
            definition.body.extend(tokens);
        }
    }
    found
}

/// Words, numbers, operators and parentheses.
fn tokens(line: &str) -> Vec<String> {
    line.replace('(', " ( ")
        .replace(')', " ) ")
        .split_whitespace()
        .map(str::to_string)
        .collect()
}

/// Reads an expression from a place in its tokens on.
struct Reader<'a> {
    definitions: &'a HashMap<String, Definition>,
    names: &'a HashMap<String, Value>,
    tokens: &'a [String],
    at: usize,
}

impl Reader<'_> {
    fn peek(&self) -> &str {
        self.tokens.get(self.at).map_or("", String::as_str)
    }

    fn next(&mut self) -> String {
        self.at += 1;
        self.tokens[self.at - 1].clone()
    }

    /// `a ∷ rest`, or a sum.
    fn expression(&mut self) -> Value {
        let first = self.sum();
        if self.peek() != "∷" {
            return first;
        }
        self.next();
        let mut list = vec![first];
        list.extend(self.expression().list());
        Value::List(list)
    }

    /// `a - b`, `a / b`, or an application.
    fn sum(&mut self) -> Value {
        let first = self.application();
        match self.peek() {
            "-" => {
                self.next();
                Value::Number(first.number() - self.application().number())
            }
            "/" => {
                self.next();
                Value::Number(first.number() / self.application().number())
            }
            _ => first,
        }
    }

    /// A name with its arguments, or a term.
    fn application(&mut self) -> Value {
        let name = self.peek().to_string();
        let arguments = match name.as_str() {
            "zeros" | "words" | "join" | "length" => 1,
            "replicate" => 2,
            _ if self.names.contains_key(&name) => return self.term(),
            _ => match self.definitions.get(&name) {
                Some(definition) => definition.parameters.len(),
                None => return self.term(),
            },
        };
        self.next();
        let given: Vec<Value> = (0..arguments).map(|_| self.term()).collect();
        apply(self.definitions, &name, given)
    }

    /// A number, a name, the empty list, or an expression in parentheses.
    fn term(&mut self) -> Value {
        let token = self.next();
        if token == "(" {
            let inner = self.expression();
            assert_eq!(self.next(), ")");
            return inner;
        }
        if token == "[]" {
            return Value::List(Vec::new());
        }
        if let Ok(number) = token.parse() {
            return Value::Number(number);
        }
        if let Some(value) = self.names.get(&token) {
            return value.clone();
        }
        apply(self.definitions, &token, Vec::new())
    }
}

/// A function of the definition at its arguments.
fn apply(definitions: &HashMap<String, Definition>, name: &str, given: Vec<Value>) -> Value {
    let mut given = given.into_iter();
    let mut argument = || given.next().expect("an argument");
    match name {
        "zeros" => Value::List(vec![Value::Number(0); argument().number()]),
        "replicate" => {
            let count = argument().number();
            Value::List(vec![argument(); count])
        }
        "length" => Value::Number(argument().list().len()),
        "join" => Value::List(
            argument()
                .list()
                .into_iter()
                .flat_map(Value::list)
                .collect(),
        ),
        "words" => {
            let words = argument().list().into_iter().map(Value::number);
            let bytes = words.flat_map(|w| [Value::Number(w % 256), Value::Number(w / 256)]);
            Value::List(bytes.collect())
        }
        _ => {
            let definition = &definitions[name];
            let names = definition.parameters.iter().cloned().zip(given).collect();
            let tokens = &definition.body;
            let mut reader = Reader {
                definitions,
                names: &names,
                tokens,
                at: 0,
            };
            let value = reader.expression();
            assert_eq!(reader.at, tokens.len(), "{name} was read to its end");
            value
        }
    }
}

/// The bytes that the definition writes down.
fn defined(text: &str) -> Vec<u8> {
    let volume = apply(&definitions(text), "volume_v", Vec::new()).list();
    let bytes = volume.into_iter().map(Value::number);
    bytes
        .map(|byte| u8::try_from(byte).expect("a byte"))
        .collect()
}

/// Where two lists of bytes first differ.
fn first_difference(one: &[u8], other: &[u8]) -> Option<usize> {
    let most = one.len().max(other.len());
    (0..most).find(|&at| one.get(at) != other.get(at))
}

#[test]
fn the_definition_the_sample_and_the_input_of_vectors_are_the_same_bytes() {
    let root = Path::new(env!("CARGO_MANIFEST_DIR")).join("../..");
    let text = std::fs::read_to_string(root.join("crates/volume_v/specs/VolumeV.antt"));
    let defined = defined(&text.expect("the definition of Volume V"));
    assert_eq!(defined.len(), 51_200);
    for place in ["samples/volume-v.dsk", "crates/vectors/stdin"] {
        let bytes = std::fs::read(root.join(place)).expect(place);
        assert_eq!(first_difference(&defined, &bytes), None, "{place}");
    }
}
