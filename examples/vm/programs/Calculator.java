import java.util.*;

/** A parser and two interpreters of a small language: over trees, and over instructions of a stack machine. */
public class Calculator {
    static abstract class Node {
        abstract long eval(Map<String, Long> env);
        abstract void emit(List<Instruction> code);
    }
    static final class Number extends Node {
        final long value;
        Number(long value) { this.value = value; }
        long eval(Map<String, Long> env) { return value; }
        void emit(List<Instruction> code) { code.add(new Push(value)); }
    }
    static final class Variable extends Node {
        final String name;
        Variable(String name) { this.name = name; }
        long eval(Map<String, Long> env) { Long v = env.get(name); if (v == null) throw new NoSuchElementException(name); return v; }
        void emit(List<Instruction> code) { code.add(new Load(name)); }
    }
    static final class Binary extends Node {
        final char op;
        final Node left, right;
        Binary(char op, Node left, Node right) { this.op = op; this.left = left; this.right = right; }
        long eval(Map<String, Long> env) { return apply(op, left.eval(env), right.eval(env)); }
        void emit(List<Instruction> code) { left.emit(code); right.emit(code); code.add(new Apply(op)); }
        static long apply(char op, long a, long b) {
            switch (op) {
                case '+': return a + b;
                case '-': return a - b;
                case '*': return a * b;
                case '/': return a / b;
                case '%': return a % b;
                default: throw new IllegalArgumentException("operator " + op);
            }
        }
    }
    static final class Let extends Node {
        final String name;
        final Node value;
        Let(String name, Node value) { this.name = name; this.value = value; }
        long eval(Map<String, Long> env) { long v = value.eval(env); env.put(name, v); return v; }
        void emit(List<Instruction> code) { value.emit(code); code.add(new Store(name)); }
    }
    interface Instruction { void run(Machine m); }
    record Push(long value) implements Instruction { public void run(Machine m) { m.push(value); } }
    record Load(String name) implements Instruction { public void run(Machine m) { m.push(m.env.get(name)); } }
    record Store(String name) implements Instruction { public void run(Machine m) { long v = m.pop(); m.env.put(name, v); m.push(v); } }
    record Apply(char op) implements Instruction { public void run(Machine m) { long b = m.pop(), a = m.pop(); m.push(Binary.apply(op, a, b)); } }
    static class Machine {
        final Map<String, Long> env = new HashMap<>();
        private final ArrayDeque<Long> stack = new ArrayDeque<>();
        void push(long v) { stack.push(v); }
        long pop() { return stack.pop(); }
    }
    static class Parser {
        final String text;
        int at;
        Parser(String text) { this.text = text; }
        char peek() { while (at < text.length() && text.charAt(at) == ' ') at++; return at < text.length() ? text.charAt(at) : 0; }
        Node sum() {
            Node left = product();
            while (peek() == '+' || peek() == '-') left = new Binary(text.charAt(at++), left, product());
            return left;
        }
        Node product() {
            Node left = atom();
            while (peek() == '*' || peek() == '/' || peek() == '%') left = new Binary(text.charAt(at++), left, atom());
            return left;
        }
        Node atom() {
            char c = peek();
            if (c == '(') { at++; Node n = sum(); if (peek() != ')') throw new IllegalStateException("expected ) at " + at); at++; return n; }
            int from = at;
            if (Character.isDigit(c)) {
                while (at < text.length() && Character.isDigit(text.charAt(at))) at++;
                return new Number(Long.parseLong(text.substring(from, at)));
            }
            if (Character.isLetter(c)) {
                while (at < text.length() && Character.isLetterOrDigit(text.charAt(at))) at++;
                String name = text.substring(from, at);
                if (peek() == '=') { at++; return new Let(name, sum()); }
                return new Variable(name);
            }
            throw new IllegalStateException("unexpected " + c + " at " + at);
        }
    }
    public static void main(String[] args) {
        String[] programs = {"1 + 2 * 3", "(1 + 2) * 3 - 4 / 2", "x = 5 * 5", "y = x + 1", "x * y % 7", "2 *", "z + 1", "1 / 0", "(1"};
        Map<String, Long> env = new HashMap<>();
        Machine machine = new Machine();
        for (String program : programs) {
            try {
                Node node = new Parser(program).sum();
                List<Instruction> code = new ArrayList<>();
                node.emit(code);
                long value = node.eval(env);
                for (Instruction one : code) one.run(machine);
                System.out.println(program + " = " + value + " " + machine.pop() + " " + code);
            } catch (RuntimeException e) {
                System.out.println(program + ": " + e);
            }
        }
        Node loop = new Parser("n = n * 1103515245 + 12345 - n / 3 + (n % 1000) * (n - 7)").sum();
        List<Instruction> code = new ArrayList<>();
        loop.emit(code);
        env.put("n", 1L);
        machine.env.put("n", 1L);
        for (int i = 0; i < 20000; i++) {
            loop.eval(env);
            for (Instruction one : code) one.run(machine);
            machine.pop();
        }
        System.out.println(env.get("n") + " " + machine.env.get("n"));
    }
}
