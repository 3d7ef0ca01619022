//! The module tree that lexer.rs expects, with lexer.rs and char_reader.rs included unchanged from SCRYER_SRC.
//! Everything in shims/ and plain/ is ours.
#![allow(dead_code, unused_imports)]

#[macro_use]
#[path = "shims/class_macros.rs"]
mod class_macros;
#[macro_use]
#[path = "shims/atom_table.rs"]
pub(crate) mod atom_table;
#[macro_use]
#[path = "shims/arena.rs"]
pub(crate) mod arena;
#[path = "shims/offset_table.rs"]
pub(crate) mod offset_table;

pub(crate) mod machine {
    pub mod machine_state {
        include!("shims/machine_state.rs");
    }
}

pub(crate) mod parser {
    pub mod dashu {
        include!("shims/dashu.rs");
    }
    pub mod ast {
        include!("shims/ast.rs");
    }
    pub mod char_reader {
        include!(concat!(env!("SCRYER_SRC"), "/src/parser/char_reader.rs"));
    }
    pub mod lexer {
        include!(concat!(env!("SCRYER_SRC"), "/src/parser/lexer.rs"));
    }
}

pub mod api;
#[path = "../compare/kind.rs"]
pub mod kind;
