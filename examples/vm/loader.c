/* Loaders and definitions (5.3): what each loader finds under a name, where class files are found, and how a class comes of one. */
#include "vm.h"

/* ---- what each loader finds under a name */

typedef struct Found {
    const char *name;
    uint32_t loader;
    Class *cls;
} Found;

static Found *found;
static size_t found_room, found_count;
static uint32_t class_offset; /* in a mirror: its class */
Loader loaders[MOST_LOADERS];
uint32_t loader_count = FIRST_OWN_LOADER;

static Found *found_at(const char *name, uint32_t loader) {
    size_t at = ((uintptr_t)name / 8 * 2654435761u + loader * 40503u) & (found_room - 1);
    while (found[at].name && (found[at].name != name || found[at].loader != loader)) at = (at + 1) & (found_room - 1);
    return &found[at];
}

/* Into a table of this room, without what dead loaders found. */
static void rehash(size_t room) {
    Found *old = found;
    size_t count = found_room;
    found = calloc(room, sizeof *found);
    found_room = room;
    found_count = 0;
    for (size_t i = 0; i < count; i++)
        if (old[i].name && !loaders[old[i].loader].dead) {
            *found_at(old[i].name, old[i].loader) = old[i];
            found_count++;
        }
    free(old);
}

void forget_dead_loaders(void) { rehash(found_room); }

static void add_class(Class ***list, uint32_t *count, uint32_t *room, Class *cls) {
    if (*count == *room) {
        *room = *room * 2 + 8;
        *list = realloc(*list, *room * sizeof(Class *));
    }
    (*list)[(*count)++] = cls;
}

static void record(const char *name, uint32_t loader, Class *cls) {
    if (found_count * 2 >= found_room) rehash(found_room ? found_room * 2 : 1 << 13);
    Found *at = found_at(name, loader);
    if (!at->name) found_count++;
    *at = (Found){name, loader, cls};
    Loader *of = &loaders[loader];
    if (cls->loader != loader) add_class(&of->recorded, &of->recorded_count, &of->recorded_room, cls);
}

Class *recorded_class(const char *name, uint32_t loader) {
    lock();
    Class *cls = found_room ? found_at(name, loader)->cls : NULL;
    unlock();
    return cls;
}

static uint32_t make_loader(Object *object) {
    uint32_t id = FIRST_OWN_LOADER, number = link_new_loader();
    while (id < MOST_LOADERS && loaders[id].used) id++;
    if (!number || id == MOST_LOADERS) return 0;
    loaders[id] = (Loader){.object = object, .number = number, .used = true};
    if (id >= loader_count) loader_count = id + 1;
    return id;
}

uint32_t loader_number(Object *object) {
    uint32_t id = CLASS_PATH_LOADER;
    if (!object) return BOOT_LOADER;
    lock();
    while (id < loader_count && loaders[id].object != object) id++;
    if (id == loader_count) id = make_loader(object);
    unlock();
    if (!id) throw_new("java/lang/OutOfMemoryError", "class loaders");
    return id;
}

static void give_loader(Class *cls) {
    Object *loader = loaders[cls->loader].object;
    if (loader) set_field(cls->mirror, "classLoader", NULL, of_ref(loader));
    if (loader) set_field(cls->mirror, "module", NULL, get_field(loader, "unnamedModule", NULL));
    else if (vm.module) set_field(cls->mirror, "module", NULL, of_ref(vm.module));
}

void set_loader_object(uint32_t number, Object *object) {
    Loader *loader = &loaders[number];
    lock();
    loader->object = object;
    for (uint32_t i = 0; i < loader->class_count; i++) give_loader(loader->classes[i]);
    unlock();
}

/* ---- files */

static bool read_file(const char *folder, size_t length, const char *name, Bytes *file) {
    char path[2048];
    if ((size_t)snprintf(path, sizeof path, "%.*s/%s.class", (int)length, folder, name) >= sizeof path) return false;
    FILE *from = fopen(path, "rb");
    if (!from) return false;
    fseek(from, 0, SEEK_END);
    long size = ftell(from);
    rewind(from);
    uint8_t *bytes = malloc((size_t)size + 1);
    bool whole = size >= 0 && fread(bytes, 1, (size_t)size, from) == (size_t)size;
    fclose(from);
    *file = (Bytes){bytes, whole ? (uint32_t)size : 0};
    return true;
}

static bool find_file(const char *name, uint32_t loader, Bytes *file) {
    if (loader == BOOT_LOADER) return image_find(name, file);
    for (const char *at = vm.class_path; *at;) {
        size_t length = strcspn(at, ":");
        if (length && read_file(at, length, name, file)) return true;
        at += length + (at[length] == ':');
    }
    return false;
}

/* ---- arrays and primitives */

static uint8_t shift_of(char primitive) {
    switch (primitive) {
        case 'Z': case 'B': return 0;
        case 'C': case 'S': return 1;
        case 'I': case 'F': return 2;
        default: return 3;
    }
}

static Class *make_array_class(Class *element) {
    char name[1024];
    char letter[2] = {element->primitive, 0};
    snprintf(name, sizeof name, element->primitive || *element->name == '[' ? "[%s" : "[L%s;", element->primitive ? letter : element->name);
    Class *cls = calloc(1, sizeof *cls);
    *cls = (Class){.name = intern(name), .super = vm.object, .element = element, .loader = element->loader, .state = READY, .depth = 1,
                   .number = vm.object->number, .flags = (element->flags & 7) | ACC_FINAL | ACC_ABSTRACT,
                   .shift = shift_of(element->primitive), .interface_count = 2, .all_interface_count = 2};
    cls->ancestors = calloc(2, sizeof(Class *));
    cls->ancestors[0] = vm.object;
    cls->ancestors[1] = cls;
    cls->interfaces = cls->all_interfaces = calloc(2, sizeof(Class *));
    cls->interfaces[0] = vm.cloneable;
    cls->interfaces[1] = vm.serializable;
    find_layout(cls);
    return cls;
}

static Object *make_mirror(Class *cls);

Class *array_class(Class *element) {
    Class *cls = ACQUIRE(element->array_of);
    if (cls) return cls;
    lock();
    if (!(cls = element->array_of)) {
        cls = make_array_class(element);
        if (vm.class_class) make_mirror(cls);
        if (element->primitive) vm.arrays[(int)element->primitive] = cls;
        RELEASE(element->array_of, cls);
    }
    unlock();
    return cls;
}

Class *class_of_type(const char *type, size_t length, uint32_t loader) {
    if (*type == '[') {
        Class *element = class_of_type(type + 1, length - 1, loader);
        return element ? array_class(element) : NULL;
    }
    if (*type == 'L') return load_class(intern_n(type + 1, length - 2), loader);
    return vm.primitives[(int)*type];
}

/* ---- definition (5.3.5) */

/* Objects of some classes have room for the machine after their fields. */
static uint32_t hidden_room(Class *cls) {
    if (cls->loader != BOOT_LOADER) return 0;
    if (!strcmp(cls->name, "java/lang/Class")) class_offset = cls->size;
    return !strcmp(cls->name, "java/lang/Class") || !strcmp(cls->name, "java/lang/invoke/SwitchPoint") ? 8
         : !strcmp(cls->name, "java/lang/invoke/MethodHandle") || !strcmp(cls->name, "java/lang/invoke/VarHandle") ? HANDLE_ROOM
         : !strcmp(cls->name, "java/lang/invoke/CallSite") ? 8 : 0;
}

static void lay_out(Class *cls) {
    cls->size = cls->super ? cls->super->size : HEADER;
    for (uint16_t i = 0; i < cls->field_count; i++) {
        Field *field = &cls->fields[i];
        uint32_t *size = field->flags & ACC_STATIC ? &cls->static_size : &cls->size;
        field->offset = *size;
        *size += 8;
    }
    cls->size += hidden_room(cls);
    find_layout(cls);
}

static void add_interfaces(Class *cls, Class *from) {
    for (uint32_t i = 0; i < from->all_interface_count; i++) {
        uint32_t j = 0;
        while (j < cls->all_interface_count && cls->all_interfaces[j] != from->all_interfaces[i]) j++;
        if (j < cls->all_interface_count) continue;
        cls->all_interfaces = realloc(cls->all_interfaces, (j + 1) * sizeof(Class *));
        cls->all_interfaces[j] = from->all_interfaces[i];
        cls->all_interface_count++;
    }
}

static void find_ancestors(Class *cls) {
    cls->depth = cls->super ? (uint16_t)(cls->super->depth + 1) : 0;
    cls->ancestors = malloc((cls->depth + 1u) * sizeof(Class *));
    if (cls->super) memcpy(cls->ancestors, cls->super->ancestors, cls->depth * sizeof(Class *));
    cls->ancestors[cls->depth] = cls;
    if (cls->super) add_interfaces(cls, cls->super);
    for (uint16_t i = 0; i < cls->interface_count; i++) add_interfaces(cls, cls->interfaces[i]);
    if (cls->flags & ACC_INTERFACE) {
        cls->all_interfaces = realloc(cls->all_interfaces, (cls->all_interface_count + 1) * sizeof(Class *));
        cls->all_interfaces[cls->all_interface_count++] = cls;
    }
}

static void set_constants(Class *cls) {
    for (uint16_t i = 0; i < cls->field_count; i++) {
        Field *field = &cls->fields[i];
        if (!(field->flags & ACC_STATIC) || !field->constant) continue;
        Constant *constant = &cls->constants[field->constant];
        Slot value = constant->is.value;
        if (constant->tag == CONSTANT_String) value = of_ref(string_of(constant_text(cls, constant->a)));
        store_as(*field->type, (char *)cls->mirror + field->offset, value);
    }
}

static Object *make_mirror(Class *cls) {
    for (uint16_t i = 0; i < cls->field_count; i++)
        if (cls->fields[i].flags & ACC_STATIC) cls->fields[i].offset += vm.class_class->size;
    cls->mirror = alloc(vm.class_class, vm.class_class->size + cls->static_size);
    AT(cls->mirror, class_offset, Class *) = cls;
    if (cls->element) set_field(cls->mirror, "componentType", NULL, of_ref(cls->element->mirror));
    give_loader(cls);
    if (cls->state == LOADED) set_constants(cls);
    return cls->mirror;
}

Class *mirror_class(Object *mirror) { return AT(mirror, class_offset, Class *); }

static bool load_parents(Class *cls, uint32_t loader) {
    if (cls->super && !(cls->super = load_class((const char *)cls->super, loader))) return false;
    for (uint16_t i = 0; i < cls->interface_count; i++)
        if (!(cls->interfaces[i] = load_class((const char *)cls->interfaces[i], loader))) return false;
    return true;
}

static void add_defined(Class *cls, uint32_t loader) {
    Loader *of = &loaders[loader];
    add_class(&of->classes, &of->class_count, &of->class_room, cls);
    find_ancestors(cls);
    lay_out(cls);
    if (loader == BOOT_LOADER) replace_methods(cls);
    if (vm.class_class) make_mirror(cls);
    record(cls->name, loader, cls);
}

/* Of bytes that are checked: with bridges, unless the machine has made them. */
static Class *parse(Bytes file, bool made) {
    Class *cls = parse_class(file);
    Bytes more = made ? file : with_bridges(file, cls);
    if (more.at == file.at) return cls;
    class_gone(cls); /* and the bytes that it was read from */
    return parse_class(more);
}

Class *define_class(uint32_t loader, Bytes file, const char *name, bool made) {
    char reason[256];
    const char *error = loader == BOOT_LOADER || made ? NULL : link_check(file, reason, sizeof reason);
    if (error) {
        free((void *)file.at);
        return throw_new(error, "%s", reason), NULL;
    }
    Class *cls = parse(file, made);
    bool other = name && name != cls->name;
    if (other) throw_new("java/lang/NoClassDefFoundError", "%s (wrong name: %s)", name, cls->name);
    if (other || !load_parents(cls, loader)) return class_gone(cls), NULL;
    lock();
    Class *known = loader <= CLASS_PATH_LOADER ? recorded_class(cls->name, loader) : NULL; /* another thread was faster */
    cls->loader = loader;
    if (!known && !(error = link_define(loader, cls, reason, sizeof reason))) add_defined(cls, loader);
    unlock();
    if (!known && !error) return cls;
    if (error) throw_new(error, "%s: %s", cls->name, reason);
    class_gone(cls);
    return known;
}

/* ---- loading */

static Class *ask_loader(const char *name, uint32_t loader) {
    Slot args[2] = {of_ref(loaders[loader].object), of_ref(new_string(dotted(name)))};
    Method *load = must_declare(boot_class("java/lang/ClassLoader"), "loadClass", "(Ljava/lang/String;)Ljava/lang/Class;");
    load = link_select(load, args[0].a);
    Object *mirror = load ? invoke(load, args, 2).a : NULL;
    return !self->exception && mirror ? mirror_class(mirror) : NULL;
}

static Class *find_elsewhere(const char *name, uint32_t loader) {
    Class *cls = loader == CLASS_PATH_LOADER ? find_class(name, BOOT_LOADER) : ask_loader(name, loader);
    Bytes file;
    if (self->exception) return NULL;
    if (!cls && loader == CLASS_PATH_LOADER && find_file(name, loader, &file)) return define_class(loader, file, name, false);
    if (!cls || cls->loader == loader) return cls;
    lock();
    if (!recorded_class(name, loader)) {
        link_delegate(loader, name, cls->loader);
        record(name, loader, cls);
    }
    unlock();
    return cls;
}

Class *find_class(const char *name, uint32_t loader) {
    Class *cls = recorded_class(name, loader);
    Bytes file;
    if (cls) return cls;
    if (*name == '[') return class_of_type(name, strlen(name), loader);
    if (loader != BOOT_LOADER) return find_elsewhere(name, loader);
    return find_file(name, loader, &file) ? define_class(loader, file, name, false) : NULL;
}

Class *load_class(const char *name, uint32_t loader) {
    Class *cls = find_class(name, loader);
    if (!cls && !self->exception) throw_new("java/lang/NoClassDefFoundError", "%s", name);
    else if (!cls && !strcmp(self->exception->cls->name, "java/lang/ClassNotFoundException")) {
        Object *cause = self->exception;
        self->exception = NULL;
        throw_new("java/lang/NoClassDefFoundError", "%s", name);
        set_field(self->exception, "cause", NULL, of_ref(cause));
    }
    return cls;
}

Class *boot_class(const char *name) {
    Class *cls = find_class(intern(name), BOOT_LOADER);
    if (cls) return cls;
    fprintf(stderr, "vm: no class %s\n", name);
    end_process(3);
}

/* ---- the first classes */

void boot_classes(void) {
    static const struct { char letter; const char *name; } kinds[] = {{'Z', "boolean"}, {'B', "byte"}, {'C', "char"}, {'S', "short"},
        {'I', "int"}, {'J', "long"}, {'F', "float"}, {'D', "double"}, {'V', "void"}};
    vm.object = boot_class("java/lang/Object");
    vm.cloneable = boot_class("java/lang/Cloneable");
    vm.serializable = boot_class("java/io/Serializable");
    for (int i = 0; i < 9; i++) {
        Class *cls = calloc(1, sizeof *cls);
        *cls = (Class){.name = intern(kinds[i].name), .primitive = kinds[i].letter, .flags = ACC_PUBLIC | ACC_FINAL | ACC_ABSTRACT,
                       .state = READY};
        vm.primitives[(int)kinds[i].letter] = cls;
        if (kinds[i].letter != 'V') array_class(cls);
    }
    vm.string = boot_class("java/lang/String");
    Class *class_class = boot_class("java/lang/Class");
    vm.throwable = boot_class("java/lang/Throwable");
    vm.class_class = class_class;
}

static void complete_mirror(Class *cls) {
    for (; cls; cls = cls->array_of) {
        if (!cls->mirror) make_mirror(cls);
        give_loader(cls);
    }
}

/* Of the classes that were there before java/lang/Class, or before the module. */
void complete_mirrors(void) {
    lock();
    for (uint32_t i = 0; i < loaders[BOOT_LOADER].class_count; i++) complete_mirror(loaders[BOOT_LOADER].classes[i]);
    for (int i = 0; i < 128; i++) complete_mirror(vm.primitives[i]);
    unlock();
}

/* ---- the end of a class */

void class_gone(Class *cls) {
    for (uint16_t i = 0; cls->methods && i < cls->method_count; i++) {
        Method *method = &cls->methods[i];
        free(method->code), free(method->sites), free(method->handlers), free(method->throws);
    }
    if (cls->array_of) class_gone(cls->array_of);
    if (cls->all_interfaces != cls->interfaces) free(cls->all_interfaces);
    free(cls->interfaces), free(cls->ancestors), free(cls->constants), free(cls->fields), free(cls->methods), free(cls->bootstraps);
    free(cls->refs), free((void *)cls->file.at), free(cls);
}
