use std::rc::Rc;

/// A unit as the source text writes it: `m`, `m * s`, `m / s`.
#[derive(Debug, Clone, PartialEq, Eq)]
pub enum UnitAnnotation {
    Symbol(String),
    Multiply(Box<UnitAnnotation>, Box<UnitAnnotation>),
    Divide(Box<UnitAnnotation>, Box<UnitAnnotation>),
}

/// A type, in the order of document 01's kind codes. Equality is structural.
#[derive(Debug, Clone, PartialEq)]
pub enum TypeAnnotation {
    Null,
    Int,
    CInt,
    UInt,
    CUInt,
    Float,
    CFloat,
    Bool,
    CBool,
    String,
    CString,
    Byte,
    CByte,
    Char,
    CChar,
    Error,
    CError,
    HandleInfer,
    Fn,
    Array(Box<TypeAnnotation>),
    CArray(Box<TypeAnnotation>),
    Set(Box<TypeAnnotation>),
    CSet(Box<TypeAnnotation>),
    Result(Box<TypeAnnotation>),
    CResult(Box<TypeAnnotation>),
    Map(Box<TypeAnnotation>, Box<TypeAnnotation>),
    CMap(Box<TypeAnnotation>, Box<TypeAnnotation>),
    Tuple(Rc<Vec<TypeAnnotation>>),
    CTuple(Rc<Vec<TypeAnnotation>>),
    Any(Rc<Vec<TypeAnnotation>>),
    CAny(Rc<Vec<TypeAnnotation>>),
    Callback(Vec<TypeAnnotation>, Box<TypeAnnotation>),
    Record(String),
    CRecord(String),
    Enum(String),
    CEnum(String),
    Handle(String),
    Generic(String),
}

/// A lint, of which the files only keep sets.
#[derive(Debug, Clone, Copy, PartialEq, Eq, Hash)]
pub enum Lint {}
