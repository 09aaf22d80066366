/* What a host asks that runs calls which no code makes, as those of reflection, of method handles and of native code.
 *
 *     calls FOLDER
 *
 * FOLDER has the class files of examples/host/calls, and Object. The program checks bytes before it defines them, links an invocation when it
 * meets it, resolves references to methods, selects methods by a receiver, and asks which classes may name which.
 */
#include "common.h"

static linkd *linker;
static const char *folder;

static const uint8_t *bytes(const char *text) { return (const uint8_t *)text; }

/* ---- names */

static const char *throwable_name(uint32_t throwable) {
    switch ((linkd_throwable)throwable) {
        case LINKD_NO_SUCH_METHOD_ERROR: return "NoSuchMethodError";
        case LINKD_ILLEGAL_ACCESS_ERROR: return "IllegalAccessError";
        case LINKD_INCOMPATIBLE_CLASS_CHANGE_ERROR: return "IncompatibleClassChangeError";
        case LINKD_ABSTRACT_METHOD_ERROR: return "AbstractMethodError";
        case LINKD_NULL_POINTER_EXCEPTION: return "NullPointerException";
    }
    return "?";
}

static void print_class(uint32_t class_number) {
    uint8_t name[200];
    size_t length;
    done(linkd_class_name(linker, class_number, name, sizeof name, &length), "a class without a name");
    printf("%.*s", (int)length, (const char *)name);
}

static void print_method(uint32_t class_number, uint32_t method) {
    uint8_t name[200];
    size_t length;
    print_class(class_number);
    done(linkd_method_name(linker, class_number, method, name, sizeof name, &length), "a method without a name");
    printf(".%.*s", (int)length, (const char *)name);
}

static void print_answer(linkd_answer_kind kind, uint32_t class_number, uint32_t value) {
    switch (kind) {
        case LINKD_RUN: print_method(class_number, value); break;
        case LINKD_THROWS: printf("%s", throwable_name(value)); break;
        case LINKD_BAD_RECEIVER: printf("no such receiver"); break;
        case LINKD_UNLINKED: case LINKD_MISS: must(false, WRONG_ANSWER, "a selection is always an answer", kind);
    }
}

/* ---- definitions: the bytes are checked first, as by a host that reads them itself */

static void check(const char *what, const uint8_t *file, size_t length) {
    linkd_told told;
    linkd_status status = linkd_check(linker, LINKD_NEWEST_KNOWN, file, length, &told);
    printf("%s: %s\n", what, status == LINKD_DONE ? "a class file" : refusal_name(status, told.fault));
}

static uint32_t define(const char *name) {
    linkd_told told;
    struct file file = read_file(folder, name);
    done(linkd_check(linker, LINKD_NEWEST_KNOWN, file.bytes, file.length, &told), name);
    done(linkd_define_up_to(linker, 0, LINKD_NEWEST_KNOWN, file.bytes, file.length, &told), name);
    if (told.dropped > 0) printf("links that the definition of %s removes: %lu\n", name, (unsigned long)told.dropped);
    let_file_go(&file);
    return told.number;
}

/* ---- an invocation that is met: the first one of the method */

static void link_first(uint32_t class_number, uint32_t method) {
    linkd_invocation invocation;
    linkd_link link;
    linkd_told told;
    uint8_t name[200];
    size_t length;
    done(linkd_invocations(linker, class_number, method, &invocation, 1, &length), "the method has not one invocation");
    linkd_status status = linkd_link_place(linker, class_number, method, invocation.pc, &link, &told);
    print_method(class_number, method);
    if (status == LINKD_NOT_READY) {
        done(linkd_awaited(linker, told.number, name, sizeof name, &length), "the site waits for no class");
        printf(" waits for %.*s\n", (int)length, (const char *)name);
        return;
    }
    done(status, "an invocation is refused");
    printf(" calls");
    for (uint32_t i = 0; i < link.count; i++) {
        printf(i == 0 ? " " : ", ");
        if (link.kind == LINKD_VIRTUAL_TABLE) print_class(link.rows[i].receiver), printf(" -> ");
        print_answer(link.rows[i].kind, link.rows[i].class_number, link.rows[i].value);
    }
    printf("\n");
}

/* ---- references and selections */

/* Gives the method that was found, accessible or not. */
static uint32_t resolve(uint32_t from, uint32_t named, const char *name, const char *type) {
    linkd_resolution is;
    done(linkd_resolve(linker, from, named, bytes(name), strlen(name), bytes(type), strlen(type), &is), "a reference is refused");
    print_class(from);
    printf(" names ");
    print_class(named);
    printf(".%s: ", name);
    must(is.kind == LINKD_RUN || is.kind == LINKD_THROWS, WRONG_ANSWER, "a nest host isn't there", is.value);
    if (is.kind == LINKD_THROWS) printf("%s, ", throwable_name(is.value));
    if (is.class_number == LINKD_NO_NUMBER) printf("none is found");
    else print_method(is.class_number, is.method);
    printf("\n");
    return is.method;
}

static void select_on(uint32_t class_number, uint32_t method, uint32_t receiver) {
    linkd_call_answer answer;
    done(linkd_select(linker, class_number, method, receiver, &answer), "a selection is refused");
    print_method(class_number, method);
    printf(" on ");
    if (receiver == LINKD_NULL) printf("null");
    else print_class(receiver);
    printf(": ");
    print_answer(answer.kind, answer.class_number, answer.value);
    printf("\n");
}

static void access_to(uint32_t from, uint32_t class_number) {
    uint32_t accessible;
    done(linkd_class_accessible(linker, from, class_number, &accessible), "a class is unknown");
    print_class(from);
    printf(accessible ? " may name " : " may not name ");
    print_class(class_number);
    printf("\n");
}

int main(int count, char **words) {
    static const char text[] = "()Ljava/lang/String;";
    must(count == 2, BAD_WORDS, "calls FOLDER", 0);
    folder = words[1];
    linker = block(linkd_size(), linkd_align());
    linkd_blank(linker);
    done(linkd_open(linker, 10), "no linker");

    struct file file = read_file(folder, "Caller");
    check("no bytes", file.bytes, 0);
    check("Caller without its last byte", file.bytes, file.length - 1);
    file.bytes[0] ^= 1;
    check("Caller with another first byte", file.bytes, file.length);
    file.bytes[0] ^= 1;
    check("Caller", file.bytes, file.length);
    let_file_go(&file);

    uint32_t object = define("Object"), caller = define("Caller");
    link_first(caller, 1); /* after its constructor stands `call` */
    uint32_t animal = define("Animal");
    link_first(caller, 1);
    uint32_t speaker = define("Speaker"), dog = define("Dog"), stranger = define("other/Stranger");
    link_first(caller, 1);

    uint32_t name = resolve(caller, animal, "name", text), number = resolve(caller, dog, "count", "()I");
    uint32_t secret = resolve(caller, animal, "secret", text), kept = resolve(caller, dog, "kept", text);
    resolve(stranger, animal, "kept", text);
    resolve(stranger, dog, "name", text);
    uint32_t speak = resolve(caller, speaker, "speak", text);
    resolve(caller, speaker, "hashCode", "()I");
    resolve(caller, animal, "name", "()I");

    select_on(animal, name, animal);
    select_on(animal, name, dog);
    select_on(animal, name, caller);
    select_on(animal, name, LINKD_NULL);
    select_on(animal, secret, dog);
    select_on(animal, kept, dog);
    select_on(animal, number, LINKD_NULL);
    select_on(animal, 0, dog);
    select_on(speaker, speak, dog);
    select_on(speaker, speak, speaker);

    access_to(caller, dog);
    access_to(stranger, dog);
    access_to(stranger, object);
    linkd_close(linker);
    free(linker);
    return 0;
}
