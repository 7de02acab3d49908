//! Stand-ins for what the operators take for granted of a checker: there is one, and it
//! collects errors.

use crate::structs::TypeChecker;
use crate::units::ConversionTable;
use rl_ast::Ast;
use rl_commons::ModuleNames;
use rl_utils::errors::Error;
use rl_utils::span::Span;
use std::collections::HashMap;

impl TypeChecker {
    /// A checker that knows conversions, and of a program nothing.
    pub fn knowing(conversions: ConversionTable) -> Self {
        Self {
            scopes: Vec::new(),
            source_file: None,
            root_module: ModuleNames,
            errors: Vec::new(),
            warnings: Vec::new(),
            return_type_stack: Vec::new(),
            inferred_return_stack: Vec::new(),
            last_expr_type: None,
            saw_propagate: false,
            loop_depth: 0,
            stdlib_fn_names: HashMap::new(),
            imported_std_fns: HashMap::new(),
            deprecated_stdlib: HashMap::new(),
            fn_contracts: HashMap::new(),
            imported_std_paths: HashMap::new(),
            hovers: Vec::new(),
            definitions: Vec::new(),
            record_spans: HashMap::new(),
            tag_spans: HashMap::new(),
            base_dir: None,
            importing: Vec::new(),
            imported: HashMap::new(),
            ast_arena: Ast,
            records: HashMap::new(),
            tags: HashMap::new(),
            methods: HashMap::new(),
            conversions,
            allow_stack: Vec::new(),
            has_explicit_entry: false,
        }
    }

    pub fn error(&mut self, message: impl Into<String>, _: Span) {
        self.errors.push(Error { message: message.into() });
    }
}
