//! The expected answer to any question, from the oracle and the model alone.

use crate::call::{Answer, Call, Operand, Outcome, Question};
use crate::{answers, names, pairs, types, units};

pub fn expected(question: &Question) -> Answer {
    let Question { call, argument, page, first, second, names, .. } = question;
    let (symbol, lent) = (question.symbol(), question.lent());
    let bindings = || question.bindings().expect("bindings");
    let outcome = match call {
        Call::EmptyNames => names::empty_names(page),
        Call::AddName => names::add_name(page, first),
        Call::FindName => names::find_name(page, first),
        Call::ReadName => names::read_name(page, *argument),
        Call::UnitForm => units::unit_form(first),
        Call::Product => units::product(first, second, *argument == 1),
        Call::Exponent => units::exponent(first, symbol),
        Call::IsDimensionless => units::is_dimensionless(first),
        Call::UnitText => units::unit_text(page, first),
        Call::EmptyPairs => pairs::empty_pairs(page),
        Call::InsertPair => {
            let (symbol_and_base, factor) = question.insertion();
            pairs::insert_pair(page, names, lent, symbol_and_base, factor)
        }
        Call::Canonical => pairs::canonical(page, names, lent, symbol),
        Call::Factor => pairs::factor(page, names, lent, symbol),
        Call::Canonicalize => pairs::canonicalize(page, names, lent, first),
        Call::IsConvertibleTo => pairs::is_convertible_to(page, names, lent, first, second),
        Call::EmptyTypes => types::empty_types(page),
        Call::MakeType => {
            let (entry, name) = question.entry();
            types::make_type(page, names, lent, entry, name)
        }
        Call::ReadType => types::read_type(page, names, lent, question.number()),
        Call::Matches => types::matches(page, names, lent, question.two_numbers()),
        Call::HasGeneric => types::has_generic(page, names, lent, question.number()),
        Call::IntoConst => types::into_const(page, names, lent, question.number()),
        Call::Unify => types::unify(page, names, lent, question.two_numbers(), bindings()),
        Call::UnifyArg => types::unify_arg(page, names, lent, question.two_numbers(), bindings()),
        Call::Substitute => types::substitute(page, names, lent, question.number(), bindings()),
        Call::CheckBinaryOperator => check_binary_operator(question),
        Call::CheckUnaryOperator => {
            let [op, checked] = question.two_numbers();
            let operand = Operand { checked, unit: question.unit() };
            answers::check_unary_operator(question.pages(), op, operand)
        }
        Call::CheckIndex => {
            let [checked, key] = question.two_numbers();
            let target = Operand { checked, unit: question.unit() };
            answers::check_index(question.pages(), target, key)
        }
    };
    Answer::new(question, outcome)
}

fn check_binary_operator(question: &Question) -> Outcome {
    let (op, left, right) = question.operation();
    answers::check_binary_operator(question.pages(), op, left, right)
}
