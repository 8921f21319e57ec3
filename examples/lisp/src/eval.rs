//! Evaluates expressions, in steps. What has to wait for a value is a frame: an object with the
//! frame of its caller, its environment, what is still to be evaluated, and the values so far. So
//! calls nest as deep as the heap allows, and the collector frees frames like any other object.
//!
//! An environment is a chain of bindings. A binding has the number of its symbol as its payload,
//! and two places: the value, and the next binding.

use crate::{copy, fault, Lisp, Result, Tag, Value, CAR, CDR, STEPS};

// The places of a binding, of a closure and of a frame.
const VALUE: u8 = 0;
const NEXT: u8 = 1;
const PARAMETERS: u8 = 0;
const BODY: u8 = 1;
const SCOPE: u8 = 2;
const CALLER: u8 = 0;
const ENVIRONMENT: u8 = 1;
const REST: u8 = 2;
const VALUES: u8 = 3;
// What a frame waits for: the condition of an if, the value of a define, the parts of a call.
const CONDITION: i64 = 0;
const DEFINITION: i64 = 1;
const PARTS: i64 = 2;

enum Step<'r> {
    // Evaluates an expression in an environment.
    Evaluate(Value<'r>, Value<'r>),
    // Gives a value to the frame that waits for it.
    Return(Value<'r>),
}

impl<'r> Lisp<'r> {
    pub(crate) fn eval(&mut self, expression: Value<'r>) -> Result<Value<'r>> {
        let mut step = Step::Evaluate(expression, None);
        loop {
            self.steps -= 1;
            if self.steps == 0 {
                self.steps = STEPS;
                self.turn()?;
            }
            step = match step {
                Step::Evaluate(expression, environment) => self.enter(expression, environment)?,
                Step::Return(value) => match self.stack.take() {
                    None => return Ok(value),
                    frame => self.resume(frame, value)?,
                },
            };
        }
    }

    fn enter(&mut self, expression: Value<'r>, environment: Value<'r>) -> Result<Step<'r>> {
        match self.word(&expression)? {
            Some((Tag::Symbol, name)) => {
                return self.lookup(expression, name, environment).map(Step::Return);
            }
            Some((Tag::Pair, _)) => {}
            _ => return Ok(Step::Return(expression)),
        }
        let (head, rest) = (self.load(&expression, CAR)?, self.load(&expression, CDR)?);
        let form = match self.word(&head)? {
            Some((Tag::Symbol, name)) => self.names.get(name as usize).copied(),
            _ => None,
        };
        match form {
            Some("quote") => self.nth(&rest, 0).map(Step::Return),
            Some("lambda") => {
                let (parameters, body) = (self.nth(&rest, 0)?, self.nth(&rest, 1)?);
                self.make(Tag::Closure, 0, &[&parameters, &body, &environment]).map(Step::Return)
            }
            Some("define") => {
                let value = self.nth(&rest, 1)?;
                self.wait_for(DEFINITION, value, rest, environment)
            }
            Some("if") => {
                let condition = self.nth(&rest, 0)?;
                self.wait_for(CONDITION, condition, rest, environment)
            }
            _ => self.wait_for(PARTS, head, rest, environment),
        }
    }

    // Evaluates the expression, for whose value a new frame waits.
    fn wait_for(
        &mut self,
        kind: i64,
        expression: Value<'r>,
        rest: Value<'r>,
        environment: Value<'r>,
    ) -> Result<Step<'r>> {
        let caller = self.stack.take();
        self.stack = self.make(Tag::Frame, kind, &[&caller, &environment, &rest, &None])?;
        Ok(Step::Evaluate(expression, environment))
    }

    fn resume(&mut self, frame: Value<'r>, value: Value<'r>) -> Result<Step<'r>> {
        let (environment, rest) = (self.load(&frame, ENVIRONMENT)?, self.load(&frame, REST)?);
        self.stack = self.load(&frame, CALLER)?;
        match self.word(&frame)? {
            Some((Tag::Frame, CONDITION)) => {
                let branch = self.nth(&rest, if value.is_some() { 1 } else { 2 })?;
                Ok(Step::Evaluate(branch, environment))
            }
            Some((Tag::Frame, DEFINITION)) => {
                let (name, globals) = (self.nth(&rest, 0)?, self.globals.take());
                self.globals = self.bind(&name, &value, &globals)?;
                Ok(Step::Return(name))
            }
            _ => {
                let values = self.load(&frame, VALUES)?;
                let values = self.pair(&value, &values)?;
                if rest.is_none() {
                    return self.apply(values);
                }
                let (next, rest) = (self.load(&rest, CAR)?, self.load(&rest, CDR)?);
                self.store(&frame, REST, &rest)?;
                self.store(&frame, VALUES, &values)?;
                self.stack = frame;
                Ok(Step::Evaluate(next, environment))
            }
        }
    }

    // Calls a function. The list has its arguments from the last to the first, and then itself.
    // Its frame is gone by now, so a call in last place makes the stack no deeper.
    fn apply(&mut self, values: Value<'r>) -> Result<Step<'r>> {
        let (mut values, mut given) = (values, Vec::new());
        while values.is_some() {
            given.push(self.load(&values, CAR)?);
            values = self.load(&values, CDR)?;
        }
        let function = given.pop().flatten();
        given.reverse();
        match self.word(&function)? {
            Some((Tag::Symbol, name)) => self.call(name, &given).map(Step::Return),
            Some((Tag::Closure, _)) => {
                let environment = self.bind_all(&function, &given)?;
                Ok(Step::Evaluate(self.load(&function, BODY)?, environment))
            }
            _ => fault("the value isn't a function"),
        }
    }

    fn lookup(&mut self, symbol: Value<'r>, name: i64, scope: Value<'r>) -> Result<Value<'r>> {
        for mut binding in [scope, copy(&self.globals)?] {
            while binding.is_some() {
                if self.word(&binding)? == Some((Tag::Binding, name)) {
                    return self.load(&binding, VALUE);
                }
                binding = self.load(&binding, NEXT)?;
            }
        }
        match self.names.get(name as usize) {
            Some(_) => Ok(symbol),
            None => fault(format!("{} isn't bound", self.machine.name(name))),
        }
    }

    fn bind(&mut self, name: &Value<'r>, value: &Value<'r>, next: &Value<'r>) -> Result<Value<'r>> {
        match self.word(name)? {
            Some((Tag::Symbol, name)) => self.make(Tag::Binding, name, &[value, next]),
            _ => fault("a name isn't a symbol"),
        }
    }

    // The environment of a closure, with its parameters bound.
    fn bind_all(&mut self, closure: &Value<'r>, given: &[Value<'r>]) -> Result<Value<'r>> {
        let (mut names, mut bound) = (self.load(closure, PARAMETERS)?, self.load(closure, SCOPE)?);
        for argument in given {
            if names.is_none() {
                return fault("an argument is too much");
            }
            let name = self.load(&names, CAR)?;
            bound = self.bind(&name, argument, &bound)?;
            names = self.load(&names, CDR)?;
        }
        if names.is_some() {
            fault("an argument is missing")
        } else {
            Ok(bound)
        }
    }

    // Calls a function that is built in.
    fn call(&mut self, name: i64, given: &[Value<'r>]) -> Result<Value<'r>> {
        match (self.names.get(name as usize).copied().unwrap_or_default(), given) {
            (name @ ("+" | "-" | "*" | "<"), [one, other]) => self.calculate(name, one, other),
            (name, _) if name.contains("string") => self.call_on_strings(name, given),
            ("eq", [one, other]) => {
                let is_same = self.is_same(one, other)?;
                self.truth(is_same)
            }
            ("null", [value]) => self.truth(value.is_none()),
            ("cons", [car, cdr]) => self.pair(car, cdr),
            ("car", [pair]) => self.load(pair, CAR),
            ("cdr", [pair]) => self.load(pair, CDR),
            ("weak-cons", [car, cdr]) => self.weak_pair(car, cdr),
            ("weak-car", [pair]) => self.weak_car(pair),
            ("set-car", [pair, value]) => self.store(pair, CAR, value),
            ("set-cdr", [pair, value]) => self.store(pair, CDR, value),
            ("list", _) => given.iter().rev().try_fold(None, |list, value| self.pair(value, &list)),
            ("send", [node, value]) => {
                let to = u8::try_from(self.number_of(node)?).unwrap_or(u8::MAX);
                self.send(to, value)
            }
            ("receive", []) => self.receive(),
            _ => fault(format!("{} has other arguments", self.machine.name(name))),
        }
    }

    fn calculate(&mut self, name: &str, one: &Value<'r>, other: &Value<'r>) -> Result<Value<'r>> {
        let (one, other) = (self.number_of(one)?, self.number_of(other)?);
        match name {
            "+" => self.number(one.checked_add(other)),
            "-" => self.number(one.checked_sub(other)),
            "*" => self.number(one.checked_mul(other)),
            _ => self.truth(one < other),
        }
    }

    fn call_on_strings(&mut self, name: &str, given: &[Value<'r>]) -> Result<Value<'r>> {
        match (name, given) {
            ("string?", [value]) => {
                let is_string = matches!(self.word(value)?, Some((Tag::String, _)));
                self.truth(is_string)
            }
            ("string-length", [string]) => {
                let text = self.text_of(string)?;
                self.number(Some(text.chars().count() as i64))
            }
            ("string=?", [one, other]) => {
                let is_equal = self.text_of(one)? == self.text_of(other)?;
                self.truth(is_equal)
            }
            ("string-append", _) => {
                let texts: Result<String> = given.iter().map(|it| self.text_of(it)).collect();
                self.string(&texts?)
            }
            ("number->string", [number]) => {
                let text = self.number_of(number)?.to_string();
                self.string(&text)
            }
            _ => fault(format!("{name} has other arguments")),
        }
    }

    fn truth(&mut self, holds: bool) -> Result<Value<'r>> {
        if holds {
            self.symbol("t")
        } else {
            Ok(None)
        }
    }
}
