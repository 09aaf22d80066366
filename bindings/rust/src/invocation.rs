//! Invocations in the code of methods.
use crate::error::numbered;
use crate::raw;
use std::fmt;

numbered! {
    /// An instruction that invokes a method (JVMS SE 17 §6.5), by its opcode.
    Instruction {
        /// A method of an object, by the object's class.
        InvokeVirtual = 182: "invokevirtual",
        /// A method of an object, by the class that is named: an initializer, or one of a superclass.
        InvokeSpecial = 183: "invokespecial",
        /// A static method.
        InvokeStatic = 184: "invokestatic",
        /// An interface's method of an object, by the object's class.
        InvokeInterface = 185: "invokeinterface",
        /// What a call site of java.lang.invoke runs.
        InvokeDynamic = 186: "invokedynamic",
    }
}

/// An invocation in the code of a class's method: what [`Linker::request`](crate::Linker::request) takes.
#[derive(Clone, Copy, Debug, PartialEq, Eq, Hash)]
pub struct Invocation {
    /// The method, by its place among those that the class declares.
    pub method: u16,
    /// In bytes from the code's start.
    pub pc: u16,
    /// What invokes there.
    pub instruction: Instruction,
}

const NO_SUCH_INVOCATION: &str = "a code has less than 65,536 bytes, and linkd.h has such an opcode";

/// An invocation in the code of this method.
pub(crate) fn invocation(method: u16, of: &raw::Invocation) -> Invocation {
    Invocation {
        method,
        pc: u16::try_from(of.pc).expect(NO_SUCH_INVOCATION),
        instruction: Instruction::of(of.opcode).expect(NO_SUCH_INVOCATION),
    }
}
