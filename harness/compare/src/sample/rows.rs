//! The format of the stored sample. All numbers are big-endian.

use crate::call::{Answer, Call, Question};

/// A question with its expected answer.
#[derive(Debug, Clone, PartialEq, Eq)]
pub struct Row {
    pub question: Question,
    pub answer: Answer,
}

impl Row {
    /// The row's bytes, led by the two-byte length of what follows it.
    pub fn bytes(&self) -> Vec<u8> {
        let Self { question, answer } = self;
        let mut body = vec![question.call as u8];
        body.extend(two_bytes(question.argument));
        let Question { page, first, second, names, pairs, .. } = question;
        for field in [page, first, second, names, pairs] {
            put_field(&mut body, field);
        }
        body.push(u8::try_from(answer.refusal).expect("a refusal is one byte"));
        body.extend(two_bytes(answer.value));
        for field in [&answer.out, &answer.page] {
            put_field(&mut body, field);
        }

        let mut row = Vec::new();
        put_field(&mut row, &body);
        row
    }

    fn read(body: &[u8]) -> Option<Self> {
        let mut rest = body;
        let code = take(&mut rest, 1)?[0];
        let call = Call::ALL.into_iter().find(|&call| call as u8 == code)?;
        let argument = take_number(&mut rest)?;
        let page = take_field(&mut rest)?;
        let first = take_field(&mut rest)?;
        let second = take_field(&mut rest)?;
        let names = take_field(&mut rest)?;
        let pairs = take_field(&mut rest)?;
        let question = Question { call, argument, page, first, second, names, pairs };

        let refusal = take(&mut rest, 1)?[0].into();
        let value = take_number(&mut rest)?;
        let out = take_field(&mut rest)?;
        let page = take_field(&mut rest)?;
        let answer = Answer { refusal, value, out, page };
        rest.is_empty().then_some(Self { question, answer })
    }
}

/// Reads a whole sample; `None` where it is not one.
pub fn read_rows(sample: &[u8]) -> Option<Vec<Row>> {
    let mut rest = sample;
    let mut rows = Vec::new();
    while !rest.is_empty() {
        rows.push(Row::read(&take_field(&mut rest)?)?);
    }
    Some(rows)
}

fn two_bytes(number: u32) -> [u8; 2] {
    u16::try_from(number).expect("a number of the sample has two bytes").to_be_bytes()
}

fn put_field(bytes: &mut Vec<u8>, field: &[u8]) {
    bytes.extend(two_bytes(field.len() as u32));
    bytes.extend(field);
}

fn take<'a>(rest: &mut &'a [u8], length: usize) -> Option<&'a [u8]> {
    let (taken, tail) = rest.split_at_checked(length)?;
    *rest = tail;
    Some(taken)
}

fn take_number(rest: &mut &[u8]) -> Option<u32> {
    let bytes = take(rest, 2)?;
    Some(u16::from_be_bytes([bytes[0], bytes[1]]).into())
}

fn take_field(rest: &mut &[u8]) -> Option<Vec<u8>> {
    let length = take_number(rest)? as usize;
    Some(take(rest, length)?.to_vec())
}
