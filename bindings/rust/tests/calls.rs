//! Calls between two memories, and how they end.

use witcall::{ArrayMemory, Block, Body, Error, Link, Memory, Package, Request, Step, Trap, TrapKind, Value};

const UPPER: &str = "package a:b; interface c { upper: func(s: string) -> string; }";
const PAGE: u32 = 65536;

/// The callee's core function, which may stop.
#[derive(Default)]
struct Upper {
    stops: Option<Step>,
    posts: u32,
}

impl Body<ArrayMemory> for Upper {
    fn run(&mut self, memory: &mut ArrayMemory, values: &[Value]) -> Option<Vec<Value>> {
        if self.stops == Some(Step::Body) {
            return None;
        }
        let text = memory.get(values[0].address()?, values[1].address()?).to_ascii_uppercase();
        let length = u32::try_from(text.len()).ok()?;
        let pair = [memory.put(&text, 1)?.to_le_bytes(), length.to_le_bytes()].concat();
        Some(vec![Value::I32(memory.put(&pair, 4)?)])
    }

    fn post_return(&mut self, _: &mut ArrayMemory, answer: &[Value]) -> Option<()> {
        self.posts += answer.len() as u32;
        (self.stops != Some(Step::PostReturn)).then_some(())
    }
}

/// A caller and a callee of `upper`.
struct Pair {
    caller: ArrayMemory,
    callee: ArrayMemory,
    limit: u64,
}

impl Pair {
    fn new() -> Pair {
        Pair { caller: ArrayMemory::new(PAGE as usize), callee: ArrayMemory::new(PAGE as usize), limit: PAGE.into() }
    }

    fn call(&mut self, values: &[Value], body: &mut impl Body<ArrayMemory>) -> Result<Option<Value>, Error> {
        let package = Package::open(UPPER)?;
        let upper = package.find("a:b/c", "upper")?;
        Link::new(&package, &upper, self.limit).call(values, &mut self.caller, &mut self.callee, body)
    }

    /// What the caller finds after a call with a text.
    fn text(&mut self, text: &str, body: &mut impl Body<ArrayMemory>) -> Result<String, Error> {
        let at = self.caller.put(text.as_bytes(), 1).unwrap();
        let area = self.caller.allocate(4, 8).unwrap();
        let back = self.call(&[Value::I32(at), Value::I32(text.len() as u32), Value::I32(area)], body)?;
        assert_eq!(back, None);
        let [at, length] = [0, 4].map(|k| u32::from_le_bytes(self.caller.get(area + k, 4).try_into().unwrap()));
        Ok(String::from_utf8(self.caller.get(at, length).to_vec()).unwrap())
    }
}

fn line<Answer: std::fmt::Debug>(ended: Result<Answer, Error>) -> String {
    ended.unwrap_err().to_string()
}

#[test]
fn a_text_goes_there_and_back() -> Result<(), Error> {
    let mut body = Upper::default();
    assert_eq!(Pair::new().text("two memories, 2", &mut body)?, "TWO MEMORIES, 2");
    assert_eq!(body.posts, 1);
    Ok(())
}

#[test]
fn a_component_that_stops_ends_the_call_in_a_trap() {
    for (step, words) in [(Step::Body, "trap K7 body in body"), (Step::PostReturn, "trap K7 body in post")] {
        let ended = Pair::new().text("abc", &mut Upper { stops: Some(step), posts: 0 });
        assert_eq!(ended, Err(Error::Trap(Trap { kind: TrapKind::Body, step })));
        assert_eq!(line(ended), words);
    }
}

#[test]
fn values_that_are_none_end_the_call_in_a_trap() {
    let call = |values: &[Value]| line(Pair::new().call(values, &mut Upper::default()));
    let flats = |at, length, area| call(&[at, length, area].map(Value::I32));
    assert_eq!(flats(0, PAGE + 1, 16), "error 76 above the limit");
    assert_eq!(flats(PAGE - 1, 2, 16), "trap K4 bounds in lift-args");
    assert_eq!(flats(0, 0, 18), "trap K3 align in lower-result");
    assert_eq!(call(&[Value::I32(0)]), "trap K8 coresignature in lift-args");
    assert_eq!(call(&[Value::I64(0), Value::I32(0), Value::I32(0)]), "trap K8 coresignature in lift-args");
    for answer in [vec![], vec![Value::I32(8); 2], vec![Value::I64(8)]] {
        let mut body = |_: &mut ArrayMemory, _: &[Value]| Some(answer.clone());
        let ended = Pair::new().call(&[0, 0, 16].map(Value::I32), &mut body);
        assert_eq!(line(ended), "trap K8 coresignature in lift-result");
    }
}

#[test]
fn an_allocator_without_room_ends_the_call_in_a_trap() {
    let mut pair = Pair::new();
    pair.callee.allocate(1, PAGE).unwrap();
    let ended = pair.text("abc", &mut Upper::default());
    assert_eq!(ended, Err(Error::Trap(Trap { kind: TrapKind::Full, step: Step::LowerArguments })));
}

#[test]
fn blocks_above_the_limit_and_wrong_blocks_are_refused() -> Result<(), Error> {
    let mut pair = Pair { limit: 2, ..Pair::new() };
    assert_eq!(line(pair.text("abc", &mut Upper::default())), "error 76 above the limit");
    let package = Package::open(UPPER)?;
    let call = package.call(&package.find("a:b/c", "upper")?, &[0, 3, 16].map(Value::I32))?;
    let mut enter = |size, address| {
        let block = Block { request: Request { alignment: 1, size }, address };
        line(call.enter(pair.caller.bytes(), pair.callee.bytes(), &[block]))
    };
    assert_eq!(enter(3, PAGE), "error 72 bad block");
    assert_eq!(enter(4, 0), "error 73 other block 0");
    Ok(())
}

#[test]
fn more_blocks_than_have_room_at_first() -> Result<(), Error> {
    let package = Package::open("package a:b; interface c { f: func(all: list<string>); }")?;
    let mut memory = [8_u32.to_le_bytes(), 1_u32.to_le_bytes()].concat().repeat(1000);
    let call = package.call(&package.find("a:b/c", "f")?, &[Value::I32(0), Value::I32(1000)])?;
    let asked = call.enter_requests(&mut memory, 1 << 20)?;
    assert_eq!((asked.len(), asked[0].size, asked[1000].size), (1001, 8000, 1));
    Ok(())
}

#[test]
fn a_body_may_make_calls_of_the_same_package() -> Result<(), Error> {
    let package = Package::open("package a:b; interface c { f: func(n: u64) -> u64; }")?;
    let link = Link::new(&package, &package.find("a:b/c", "f")?, 0);
    fn sum(link: &Link<'_>, values: &[Value]) -> Option<Vec<Value>> {
        let Value::I64(n) = values[0] else { return None };
        let mut again = |_: &mut ArrayMemory, values: &[Value]| sum(link, values);
        let (mut caller, mut callee) = (ArrayMemory::new(0), ArrayMemory::new(0));
        let rest = match n.checked_sub(1) {
            Some(less) => link.call(&[Value::I64(less)], &mut caller, &mut callee, &mut again).ok()?,
            None => Some(Value::I64(0)),
        };
        let Some(Value::I64(rest)) = rest else { return None };
        Some(vec![Value::I64(n + rest)])
    }
    assert_eq!(sum(&link, &[Value::I64(10)]), Some(vec![Value::I64(55)]));
    Ok(())
}
