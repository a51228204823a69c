//! The operations, each in a file of its own. A new one is named here, and nowhere else.

use crate::operation::Operation;

macro_rules! operations {
    ($($name:ident)*) => {
        $(pub mod $name;)*
        pub static OPERATIONS: &[&Operation] = &[$(&$name::OPERATION),*];
    };
}

operations! {
    read_charstring_number
    read_dict_integer
    write_charstring_number
    write_dict_integer
    call_index
    callee
    read_index
    read_entry
    write_index
    check_list
    entry_by_view
    flatten
    flatten_font
    flatten_marked
    explain
    flatten_glyphs
}
