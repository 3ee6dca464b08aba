//! A plain program in Rust that replays a scenario of `issue`, `repeat`, `deliver` and `serve`, for `bench/replay` to
//! measure beside linda_kt. It leaves out checkpoints, failures, rollbacks, variables, `set`, `unless`, `inp`, `rdp`,
//! the store, the causes of what happened, the faults of a text, every limit and every want of memory. It is not
//! proved, and panics at whatever it does not know.

use std::collections::{HashMap, VecDeque};
use std::io::Read;

#[derive(Clone, PartialEq, Eq, PartialOrd, Ord)]
enum Value {
    Int(i64),
    Str(String),
}

#[derive(Clone)]
enum Place {
    Actual(Value),
    AnyInt,
    AnyStr,
}

#[derive(Clone)]
struct Op {
    word: String,
    places: Vec<Place>,
}

enum Message {
    Request(usize, Op),
    Answer(usize),
}

#[derive(Default)]
struct Worker {
    script: Vec<Op>,
    asked: usize,
    is_waiting: bool,
}

#[derive(Default)]
struct Shard {
    bag: Vec<Vec<Value>>,
    waiting: HashMap<usize, (usize, Op)>,
    answered: HashMap<usize, usize>,
}

fn place(text: &str) -> Place {
    match text {
        "?int" => Place::AnyInt,
        "?str" => Place::AnyStr,
        _ if text.starts_with("?int ") => Place::AnyInt,
        _ if text.starts_with('"') => Place::Actual(Value::Str(text.trim_matches('"').to_string())),
        _ => Place::Actual(Value::Int(text.parse().expect("an int"))),
    }
}

fn operation(line: &str) -> Op {
    let (word, rest) = line.split_once(' ').expect("a command");
    let places = rest[1..rest.len() - 1].split(", ").map(place).collect();
    Op { word: word.to_string(), places }
}

fn admits(place: &Place, value: &Value) -> bool {
    match (place, value) {
        (Place::Actual(actual), value) => actual == value,
        (Place::AnyInt, Value::Int(_)) | (Place::AnyStr, Value::Str(_)) => true,
        _ => false,
    }
}

/// The shard of these kinds: the kinds as digits to the base 5, by the number of shards.
fn home(op: &Op, shards: usize) -> usize {
    let digit = |place: &Place| match place {
        Place::Actual(Value::Int(_)) | Place::AnyInt => 1,
        Place::Actual(Value::Str(_)) | Place::AnyStr => 2,
    };
    op.places.iter().fold(0, |sum, place| 5 * sum + digit(place)) % shards
}

fn shown(values: &[Value]) -> String {
    let texts = values.iter().map(|value| match value {
        Value::Int(int) => int.to_string(),
        Value::Str(text) => format!("\"{text}\""),
    });
    format!("({})", texts.collect::<Vec<_>>().join(", "))
}

fn template(places: &[Place]) -> String {
    let texts = places.iter().map(|place| match place {
        Place::AnyInt => "?int".to_string(),
        Place::AnyStr => "?str".to_string(),
        Place::Actual(value) => shown(std::slice::from_ref(value)).trim_matches(&['(', ')'][..]).to_string(),
    });
    format!("({})", texts.collect::<Vec<_>>().join(", "))
}

fn number(name: &str) -> usize {
    name[1..].parse::<usize>().expect("a node") - 1
}

/// Serves the worker that waits, with the match of this number, and gives the service as the report has it.
fn serve(shard: &mut Shard, worker: usize, at: usize) -> (usize, String) {
    let (asked, op) = shard.waiting.remove(&worker).expect("a request");
    let answer = if op.word == "out" {
        let values = op.places.iter().filter_map(|place| match place {
            Place::Actual(value) => Some(value.clone()),
            _ => None,
        });
        shard.bag.push(values.collect());
        "done".to_string()
    } else {
        let is_match = |tuple: &Vec<Value>| {
            tuple.len() == op.places.len() && op.places.iter().zip(tuple).all(|(place, value)| admits(place, value))
        };
        let found = shard.bag.iter().enumerate().filter(|(_, tuple)| is_match(tuple)).nth(at).expect("a match").0;
        let got = if op.word == "in" { shard.bag.remove(found) } else { shard.bag[found].clone() };
        format!("got {}", shown(&got))
    };
    shard.answered.insert(worker, asked);
    (asked, format!("w{}.{asked} {} {} {answer}", worker + 1, op.word, template(&op.places)))
}

fn main() {
    let mut text = String::new();
    std::io::stdin().read_to_string(&mut text).expect("a text");
    let (mut workers, mut shards, mut services) = (Vec::<Worker>::new(), Vec::<Shard>::new(), Vec::new());
    let mut links = HashMap::<(&str, &str), VecDeque<Message>>::new();
    let names: Vec<String> = (1..=8).map(|shard| format!("s{shard}")).collect();
    let mut notes = Vec::<(usize, usize)>::new();
    let mut is_script = true;
    for line in text.lines().filter(|line| !line.starts_with('#')).skip(1) {
        let words: Vec<&str> = line.split(' ').collect();
        match words[..] {
            ["shards", count] => shards.resize_with(count.parse().expect("a number"), Shard::default),
            ["worker"] => workers.push(Worker::default()),
            ["steps"] => is_script = false,
            ["end"] => break,
            _ if is_script => workers.last_mut().expect("a worker").script.push(operation(line)),
            ["issue", name] | ["repeat", name] => {
                let worker = &mut workers[number(name)];
                worker.asked += (words[0] == "issue") as usize;
                worker.is_waiting = true;
                let op = worker.script[worker.asked - 1].clone();
                let to = names[home(&op, shards.len())].as_str();
                links.entry((name, to)).or_default().push_back(Message::Request(worker.asked, op));
                notes.push((number(name), worker.asked));
            }
            ["deliver", from, to] => match links.get_mut(&(from, to)).expect("a link").pop_front().expect("a message") {
                Message::Request(asked, op) => {
                    let (shard, worker) = (&mut shards[number(to)], number(from));
                    if shard.answered.get(&worker) == Some(&asked) {
                        links.entry((to, from)).or_default().push_back(Message::Answer(asked));
                    } else {
                        shard.waiting.insert(worker, (asked, op));
                    }
                    notes.push((8 + number(to), asked));
                }
                Message::Answer(asked) => {
                    let worker = &mut workers[number(to)];
                    worker.is_waiting = worker.asked != asked;
                    notes.push((number(to), asked));
                }
            },
            ["serve", name, worker, at] => {
                let shard = &mut shards[number(name)];
                let (asked, service) = serve(shard, number(worker), at.parse().expect("a place"));
                services.push(service);
                links.entry((name, worker)).or_default().push_back(Message::Answer(asked));
                notes.push((8 + number(name), asked));
            }
            _ => panic!("no step: {line}"),
        }
    }
    let mut space: Vec<String> = shards.iter().flat_map(|shard| shard.bag.iter().map(|tuple| shown(tuple))).collect();
    space.sort();
    println!("survivors {}", services.len());
    services.iter().for_each(|service| println!("{service}"));
    println!("lost 0\nspace {}", space.len());
    space.iter().for_each(|tuple| println!("{tuple}"));
    println!("permanent 0");
}
