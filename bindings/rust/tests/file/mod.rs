//! Class files as small as can be (JVMS SE 17 chapter 4), written from their parts.

use linkd::NEWEST_OF_17;

/// An invocation: its opcode, and the class, the name and the type of the method.
pub type Call = (u8, &'static str, &'static str, &'static str);

/// A method without parameters and result: its flags, its name, and what it calls. An abstract one has no code.
pub type Method = (u16, &'static str, Vec<Call>);

#[derive(Default)]
struct Pool {
    bytes: Vec<u8>,
    count: u16,
}

impl Pool {
    fn add(&mut self, entry: &[u8]) -> u16 {
        self.bytes.extend_from_slice(entry);
        self.count += 1;
        self.count
    }

    fn utf8(&mut self, text: &str) -> u16 {
        let mut entry = vec![1];
        entry.extend_from_slice(&(text.len() as u16).to_be_bytes());
        entry.extend_from_slice(text.as_bytes());
        self.add(&entry)
    }

    fn pair(&mut self, tag: u8, one: u16, other: u16) -> u16 {
        let ([a, b], [c, d]) = (one.to_be_bytes(), other.to_be_bytes());
        self.add(&[tag, a, b, c, d])
    }

    fn class(&mut self, name: &str) -> u16 {
        let [a, b] = self.utf8(name).to_be_bytes();
        self.add(&[7, a, b])
    }

    fn method(&mut self, class: &str, name: &str, descriptor: &str) -> u16 {
        let class = self.class(class);
        let (name, descriptor) = (self.utf8(name), self.utf8(descriptor));
        let name_and_type = self.pair(12, name, descriptor);
        self.pair(10, class, name_and_type)
    }
}

/// The calls, three bytes each, and a return.
fn code(pool: &mut Pool, calls: &[Call]) -> Vec<u8> {
    let mut code = Vec::new();
    for (opcode, class, name, descriptor) in calls {
        code.push(*opcode);
        code.extend_from_slice(&pool.method(class, name, descriptor).to_be_bytes());
    }
    code.push(0xb1);
    code
}

const ABSTRACT: u16 = 0x0400;

fn method(pool: &mut Pool, (flags, name, calls): &Method) -> Vec<u8> {
    let (name, descriptor) = (pool.utf8(name), pool.utf8("()V"));
    let has_code = flags & ABSTRACT == 0;
    let mut bytes = Vec::new();
    for number in [*flags, name, descriptor, has_code.into()] {
        bytes.extend_from_slice(&number.to_be_bytes());
    }
    if !has_code {
        return bytes;
    }
    let code = code(pool, calls);
    bytes.extend_from_slice(&pool.utf8("Code").to_be_bytes());
    bytes.extend_from_slice(&(12 + code.len() as u32).to_be_bytes());
    bytes.extend_from_slice(&[0, 0, 0, 0]);
    bytes.extend_from_slice(&(code.len() as u32).to_be_bytes());
    bytes.extend_from_slice(&code);
    bytes.extend_from_slice(&[0, 0, 0, 0]);
    bytes
}

/// A public class, in a file of Java 17; java/lang/Object has no superclass.
pub fn class(name: &str, superclass: Option<&str>, methods: &[Method]) -> Vec<u8> {
    class_of_version(NEWEST_OF_17, name, superclass, methods)
}

/// The same in a file of this major version.
pub fn class_of_version(major: u16, name: &str, superclass: Option<&str>, methods: &[Method]) -> Vec<u8> {
    Class { major, name, superclass, methods, ..Class::default() }.bytes()
}

/// A class or an interface by its parts.
pub struct Class<'a> {
    pub major: u16,
    pub flags: u16,
    pub name: &'a str,
    pub superclass: Option<&'a str>,
    pub interfaces: &'a [&'a str],
    pub methods: &'a [Method],
    pub nest_host: Option<&'a str>,
}

impl Default for Class<'_> {
    /// A public class below java/lang/Object, in a file of Java 17.
    fn default() -> Self {
        let superclass = Some("java/lang/Object");
        Class { major: NEWEST_OF_17, flags: 0x21, name: "", superclass, interfaces: &[], methods: &[], nest_host: None }
    }
}

impl Class<'_> {
    pub fn bytes(&self) -> Vec<u8> {
        let mut pool = Pool::default();
        let this = pool.class(self.name);
        let parent = self.superclass.map_or(0, |name| pool.class(name));
        let interfaces: Vec<u16> = self.interfaces.iter().map(|name| pool.class(name)).collect();
        let methods: Vec<Vec<u8>> = self.methods.iter().map(|it| method(&mut pool, it)).collect();
        let nest_host = self.nest_host.map(|name| (pool.utf8("NestHost"), pool.class(name)));
        let mut bytes = vec![0xca, 0xfe, 0xba, 0xbe, 0, 0];
        bytes.extend_from_slice(&self.major.to_be_bytes());
        bytes.extend_from_slice(&(pool.count + 1).to_be_bytes());
        bytes.extend_from_slice(&pool.bytes);
        let mut put = |number: u16| bytes.extend_from_slice(&number.to_be_bytes());
        [self.flags, this, parent, interfaces.len() as u16].into_iter().for_each(&mut put);
        interfaces.into_iter().for_each(&mut put);
        [0, methods.len() as u16].into_iter().for_each(&mut put);
        bytes.extend(methods.concat());
        let mut put = |number: u16| bytes.extend_from_slice(&number.to_be_bytes());
        put(nest_host.is_some().into());
        if let Some((attribute, host)) = nest_host {
            [attribute, 0, 2, host].into_iter().for_each(put);
        }
        bytes
    }
}
