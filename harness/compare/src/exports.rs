//! The exports of the static library `calls`.

// Nothing checks these declarations against the library's source.
#[link(name = "calls", kind = "static")]
extern "C" {
    pub fn riddlepoppy_empty_names(page: *mut u8, n: usize) -> u32;
    pub fn riddlepoppy_add_name(page: *mut u8, n: usize, name: *const u8, m: usize) -> u32;
    pub fn riddlepoppy_find_name(page: *const u8, n: usize, name: *const u8, m: usize) -> u32;
    pub fn riddlepoppy_read_name(page: *const u8, n: usize, k: u32, out: *mut u8) -> u32;
    pub fn riddlepoppy_unit_form(unit: *const u8, n: usize) -> u32;
    pub fn riddlepoppy_product(
        a: *const u8,
        n: usize,
        b: *const u8,
        m: usize,
        quotient: bool,
        out: *mut u8,
    ) -> u32;
    pub fn riddlepoppy_exponent(unit: *const u8, n: usize, symbol: u16) -> u32;
    pub fn riddlepoppy_is_dimensionless(unit: *const u8, n: usize) -> u32;
    pub fn riddlepoppy_unit_text(
        names: *const u8,
        n: usize,
        unit: *const u8,
        m: usize,
        out: *mut u8,
    ) -> u32;
    pub fn riddlepoppy_empty_pairs(page: *mut u8, n: usize) -> u32;
    pub fn riddlepoppy_insert_pair(
        page: *mut u8,
        n: usize,
        names: *const u8,
        m: usize,
        lent: bool,
        symbol: u16,
        factor: u64,
        base: u16,
    ) -> u32;
    pub fn riddlepoppy_canonical(
        page: *const u8,
        n: usize,
        names: *const u8,
        m: usize,
        lent: bool,
        symbol: u16,
    ) -> u32;
    pub fn riddlepoppy_first_factor(
        page: *const u8,
        n: usize,
        names: *const u8,
        m: usize,
        lent: bool,
        symbol: u16,
        out: *mut u8,
    ) -> u32;
    pub fn riddlepoppy_canonicalize(
        page: *const u8,
        n: usize,
        names: *const u8,
        m: usize,
        lent: bool,
        unit: *const u8,
        l: usize,
        out: *mut u8,
    ) -> u32;
    pub fn riddlepoppy_is_convertible_to(
        page: *const u8,
        n: usize,
        names: *const u8,
        m: usize,
        lent: bool,
        left: *const u8,
        l: usize,
        right: *const u8,
        r: usize,
    ) -> u32;
    pub fn riddlepoppy_empty_types(page: *mut u8, n: usize) -> u32;
    pub fn riddlepoppy_make_type(
        page: *mut u8,
        n: usize,
        names: *const u8,
        m: usize,
        lent: bool,
        kind: u8,
        children: *const u16,
        l: usize,
        name: u16,
    ) -> u32;
    pub fn riddlepoppy_read_type(
        page: *const u8,
        n: usize,
        names: *const u8,
        m: usize,
        lent: bool,
        number: u32,
        out: *mut u8,
    ) -> u32;
    pub fn riddlepoppy_matches(
        page: *const u8,
        n: usize,
        names: *const u8,
        m: usize,
        lent: bool,
        actual: u32,
        expected: u32,
    ) -> u32;
    pub fn riddlepoppy_has_generic(
        page: *const u8,
        n: usize,
        names: *const u8,
        m: usize,
        lent: bool,
        number: u32,
    ) -> u32;
    pub fn riddlepoppy_into_const(
        page: *mut u8,
        n: usize,
        names: *const u8,
        m: usize,
        lent: bool,
        checked: u32,
    ) -> u32;
    pub fn riddlepoppy_unify(
        page: *const u8,
        n: usize,
        names: *const u8,
        m: usize,
        lent: bool,
        expected: u32,
        actual: u32,
        bindings: *mut u8,
    ) -> u32;
    pub fn riddlepoppy_unify_arg(
        page: *const u8,
        n: usize,
        names: *const u8,
        m: usize,
        lent: bool,
        expected: u32,
        actual: u32,
        bindings: *mut u8,
    ) -> u32;
    pub fn riddlepoppy_substitute(
        page: *mut u8,
        n: usize,
        names: *const u8,
        m: usize,
        lent: bool,
        number: u32,
        bindings: *const u8,
    ) -> u32;
    pub fn riddlepoppy_check_binary_operator(
        page: *const u8,
        n: usize,
        names: *const u8,
        m: usize,
        lent: bool,
        pairs: *const u8,
        k: usize,
        op: u32,
        left: u32,
        left_unit: *const u8,
        l: usize,
        right: u32,
        right_unit: *const u8,
        r: usize,
        out: *mut u8,
    ) -> u32;
    pub fn riddlepoppy_check_unary_operator(
        page: *mut u8,
        n: usize,
        names: *const u8,
        m: usize,
        lent: bool,
        op: u32,
        operand: u32,
        unit: *const u8,
        l: usize,
        out: *mut u8,
    ) -> u32;
    pub fn riddlepoppy_check_index(
        page: *mut u8,
        n: usize,
        names: *const u8,
        m: usize,
        lent: bool,
        target: u32,
        unit: *const u8,
        l: usize,
        key: u32,
        out: *mut u8,
    ) -> u32;
    pub fn riddlepoppy_check_formula(
        page: *mut u8,
        n: usize,
        names: *const u8,
        m: usize,
        lent: bool,
        pairs: *const u8,
        k: usize,
        nodes: *const u8,
        l: usize,
        root: u32,
        out: *mut u8,
    ) -> u32;
    pub fn riddlepoppy_compare_formulas(
        page: *mut u8,
        n: usize,
        names: *const u8,
        m: usize,
        lent: bool,
        pairs: *mut u8,
        k: usize,
        requests: *const u8,
        j: usize,
        left: *const u8,
        l: usize,
        left_root: u32,
        right: *const u8,
        r: usize,
        right_root: u32,
    ) -> u32;
}
