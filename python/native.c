/*
 * json_patch._native: the calls of json_patch.h over bytes, with the library in it, for each Python from 3.8 on
 * (its stable ABI). While the library works other threads run.
 *
 * A call returns what it writes. Where it writes nothing it raises Fault(status, operation, kind, path), as the
 * report has them, and with the path of a refused operation, else None; or MemoryError. Limits are three numbers:
 * depth, bytes and operations. _native.pyi has the types.
 */
#define PY_SSIZE_T_CLEAN
#include <Python.h>
#include <json_patch.h>
#include <stdlib.h>

/* Room beside as much as the texts that are handed in take: mostly that suffices. */
enum { SPARE_ROOM = 64 };

/* Room that is taken from the stack. */
enum { FEW = 1024 };

typedef struct {
    const char *at;
    Py_ssize_t length;
} text;

/* The two arguments that json_patch.h has for a text. */
#define OF(text) (text).at, (size_t)(text).length

/* What a call is handed, each with what it takes of it. */
typedef struct {
    json_patch_document *kept;
    text first, second;
    json_patch_limits limits;
    unsigned flags;
} arguments;

typedef struct {
    char few[FEW];
    char *at; /* these few bytes, or a block */
    size_t room;
    json_patch_report report;
} output;

typedef json_patch_status call(const arguments *given, output *to);

/* Where the library keeps a document. It isn't closed when it goes, since that may be on another thread. */
typedef struct {
    PyObject_HEAD
    json_patch_document document;
} handle;

typedef struct {
    PyObject *fault;
    PyTypeObject *handle;
    PyCFunction is_ascii; /* what str.isascii calls */
} state;

/* ---- the calls */

static json_patch_status apply(const arguments *given, output *to)
{
    return json_patch_apply(OF(given->first), OF(given->second), &given->limits, to->at, to->room, &to->report);
}

/* The inverse goes to the second half of the room. */
static json_patch_status record(const arguments *given, output *to)
{
    size_t half = to->room / 2;
    json_patch_report *report = &to->report;
    json_patch_status status = json_patch_record(OF(given->first), OF(given->second), &given->limits, to->at, half,
                                                 to->at + half, half, report);
    if (status == JSON_PATCH_NO_ROOM)
        report->size = 2 * (report->size > report->inverse_size ? report->size : report->inverse_size);
    return status;
}

static json_patch_status merge(const arguments *given, output *to)
{
    return json_patch_merge(OF(given->first), OF(given->second), &given->limits, to->at, to->room, &to->report);
}

static json_patch_status diff(const arguments *given, output *to)
{
    return json_patch_diff(OF(given->first), OF(given->second), &given->limits, given->flags, to->at, to->room,
                           &to->report);
}

static json_patch_status merge_diff(const arguments *given, output *to)
{
    return json_patch_merge_diff(OF(given->first), OF(given->second), &given->limits, to->at, to->room, &to->report);
}

static json_patch_status merge_join(const arguments *given, output *to)
{
    return json_patch_merge_join(OF(given->first), OF(given->second), &given->limits, to->at, to->room, &to->report);
}

static json_patch_status check(const arguments *given, output *to)
{
    return json_patch_check(OF(given->first), &to->report);
}

static json_patch_status value(const arguments *given, output *to)
{
    return json_patch_value(OF(given->first), OF(given->second), &given->limits, to->at, to->room, &to->report);
}

static json_patch_status open_kept(const arguments *given, output *to)
{
    return json_patch_open(given->kept, OF(given->first), &given->limits, &to->report);
}

static json_patch_status update(const arguments *given, output *to)
{
    return json_patch_update(given->kept, OF(given->first), to->at, to->room, &to->report);
}

static json_patch_status update_recorded(const arguments *given, output *to)
{
    return json_patch_update_recorded(given->kept, OF(given->first), to->at, to->room, &to->report);
}

static json_patch_status update_merged(const arguments *given, output *to)
{
    return json_patch_update_merged(given->kept, OF(given->first), &to->report);
}

static json_patch_status undo(const arguments *given, output *to)
{
    return json_patch_undo(given->kept, &to->report);
}

static json_patch_status inverse(const arguments *given, output *to)
{
    return json_patch_inverse(given->kept, to->at, to->room, &to->report);
}

static json_patch_status diff_to(const arguments *given, output *to)
{
    return json_patch_diff_to(given->kept, OF(given->first), to->at, to->room, &to->report);
}

static json_patch_status kept_text(const arguments *given, output *to)
{
    return json_patch_text(given->kept, to->at, to->room, &to->report);
}

static json_patch_status value_at(const arguments *given, output *to)
{
    return json_patch_value_at(given->kept, OF(given->first), to->at, to->room, &to->report);
}

/* ---- how a call is made */

/* Raises what came of a call that wrote nothing. */
static void tell(PyObject *module, json_patch_status status, const output *to)
{
    const json_patch_report *report = &to->report;
    const char *path = status == JSON_PATCH_REFUSED ? to->at : NULL;
    PyObject *told;
    if (status == JSON_PATCH_NO_MEMORY) {
        PyErr_NoMemory();
        return;
    }
    /* of no path it makes None */
    told = Py_BuildValue("iniz#", (int)status, (Py_ssize_t)report->operation, (int)report->kind, path,
                         (Py_ssize_t)report->size);
    if (told)
        PyErr_SetObject(((state *)PyModule_GetState(module))->fault, told);
    Py_XDECREF(told);
}

static int has_room(output *to, size_t room)
{
    if (room <= to->room)
        return 1;
    if (to->at != to->few)
        free(to->at);
    to->at = malloc(room);
    to->room = room;
    if (!to->at)
        PyErr_NoMemory();
    return to->at != NULL;
}

/* Makes a call, and again where there was no room for what it writes, or for a path: then it has changed nothing.
   Whether it is done; else an exception is set. `to` has to be let go in both cases. */
static int done(PyObject *module, call *make, const arguments *given, output *to)
{
    size_t room = (size_t)given->first.length + (size_t)given->second.length + SPARE_ROOM;
    to->at = to->few;
    to->room = FEW;
    if (make == record)
        room *= 2;
    for (;;) {
        json_patch_status status;
        if (!has_room(to, room))
            return 0;
        Py_BEGIN_ALLOW_THREADS
        status = make(given, to);
        Py_END_ALLOW_THREADS
        room = to->report.size;
        if (room <= to->room && status == JSON_PATCH_OK)
            return 1;
        if (room <= to->room) {
            tell(module, status, to);
            return 0;
        }
    }
}

static void let_go(output *to)
{
    if (to->at != to->few)
        free(to->at);
}

/* What a call writes. */
static PyObject *written(PyObject *module, call *make, const arguments *given)
{
    output to;
    PyObject *made = NULL;
    if (done(module, make, given, &to)) {
        const json_patch_report *report = &to.report;
        if (make == record)
            made = Py_BuildValue("y#y#", to.at, (Py_ssize_t)report->size, to.at + to.room / 2,
                                 (Py_ssize_t)report->inverse_size);
        else
            made = PyBytes_FromStringAndSize(to.at, (Py_ssize_t)report->size);
    }
    let_go(&to);
    return made;
}

/* None, once a call is made that writes nothing. */
static PyObject *nothing(PyObject *module, call *make, const arguments *given)
{
    output to;
    int is_done = done(module, make, given, &to);
    let_go(&to);
    if (!is_done)
        return NULL;
    Py_RETURN_NONE;
}

/* ---- what it is handed */

static json_patch_limits limits_of(const unsigned long long *numbers)
{
    json_patch_limits limits = {sizeof limits, (size_t)numbers[0], (size_t)numbers[1], (size_t)numbers[2]};
    return limits;
}

/* Two texts and limits, and flags where the call has them. */
static PyObject *of_two(PyObject *module, PyObject *args, call *make)
{
    arguments given = {0};
    unsigned long long numbers[3];
    if (!PyArg_ParseTuple(args, "y#y#(KKK)|I", &given.first.at, &given.first.length, &given.second.at,
                          &given.second.length, &numbers[0], &numbers[1], &numbers[2], &given.flags))
        return NULL;
    given.limits = limits_of(numbers);
    return written(module, make, &given);
}

/* A handle, and a text where the call has one. */
static int takes_kept(PyObject *module, PyObject *args, const char *format, arguments *given)
{
    const state *here = PyModule_GetState(module);
    handle *kept;
    if (!PyArg_ParseTuple(args, format, here->handle, &kept, &given->first.at, &given->first.length))
        return 0;
    given->kept = &kept->document;
    return 1;
}

static PyObject *read_from(PyObject *module, PyObject *args, call *make)
{
    arguments given = {0};
    return takes_kept(module, args, "O!", &given) ? written(module, make, &given) : NULL;
}

static PyObject *found_in(PyObject *module, PyObject *args, call *make)
{
    arguments given = {0};
    return takes_kept(module, args, "O!y#", &given) ? written(module, make, &given) : NULL;
}

static PyObject *changes(PyObject *module, PyObject *args, call *make)
{
    arguments given = {0};
    return takes_kept(module, args, "O!y#", &given) ? nothing(module, make, &given) : NULL;
}

static PyObject *takes_back(PyObject *module, PyObject *args, call *make)
{
    arguments given = {0};
    return takes_kept(module, args, "O!", &given) ? nothing(module, make, &given) : NULL;
}

static PyObject *opens(PyObject *module, PyObject *args, call *make)
{
    const state *here = PyModule_GetState(module);
    arguments given = {0};
    unsigned long long numbers[3];
    handle *kept;
    if (!PyArg_ParseTuple(args, "O!y#(KKK)", here->handle, &kept, &given.first.at, &given.first.length, &numbers[0],
                          &numbers[1], &numbers[2]))
        return NULL;
    given.kept = &kept->document;
    given.limits = limits_of(numbers);
    return nothing(module, make, &given);
}

static PyObject *looks_at(PyObject *module, PyObject *args, call *make)
{
    arguments given = {0};
    if (!PyArg_ParseTuple(args, "y#", &given.first.at, &given.first.length))
        return NULL;
    return nothing(module, make, &given);
}

/* ---- how deep objects nest */

/* Through more lists and dicts, each counted once more for so many items, Python looks itself: where one stands at many
   places, it sees each once. */
enum { MOST_LOOKED_THROUGH = 1000000, ITEMS = 64 };

/* How many items one has that is Python's own. */
static Py_ssize_t size_of(PyObject *value)
{
    if (PyDict_CheckExact(value))
        return PyDict_Size(value);
    if (PyList_CheckExact(value))
        return PyList_Size(value);
    return PyTuple_CheckExact(value) ? PyTuple_Size(value) : 0;
}

/* Whether lists and dicts nest deeper than this: 1 or 0, or -1 where Python has to look. */
static int nests_deeper(PyObject *value, long levels, long *looked)
{
    int told = 0;
    if (!PyList_Check(value) && !PyTuple_Check(value) && !PyDict_Check(value))
        return levels < 0;
    if (levels <= 0)
        return 1;
    *looked += 1 + (long)(size_of(value) / ITEMS);
    if (*looked > MOST_LOOKED_THROUGH)
        return -1;
    if (PyDict_CheckExact(value)) {
        PyObject *item;
        Py_ssize_t at = 0;
        while (told == 0 && PyDict_Next(value, &at, NULL, &item))
            told = nests_deeper(item, levels - 1, looked);
    } else if (PyList_CheckExact(value)) {
        for (Py_ssize_t i = 0; told == 0 && i < PyList_Size(value); i++)
            told = nests_deeper(PyList_GetItem(value, i), levels - 1, looked);
    } else if (PyTuple_CheckExact(value)) {
        for (Py_ssize_t i = 0; told == 0 && i < PyTuple_Size(value); i++)
            told = nests_deeper(PyTuple_GetItem(value, i), levels - 1, looked);
    } else { /* what it holds, its own methods say */
        told = -1;
    }
    return told;
}

static PyObject *call_is_deeper(PyObject *module, PyObject *args)
{
    PyObject *value;
    long levels, looked = 0;
    int told;
    (void)module;
    if (!PyArg_ParseTuple(args, "Ol", &value, &levels))
        return NULL;
    told = nests_deeper(value, levels, &looked);
    if (told < 0)
        Py_RETURN_NONE;
    return PyBool_FromLong(told);
}

/* ---- where two objects may differ */

/* What is told of a pair: that both are the same plain JSON, or nothing; or an exception is set. No code of the
   caller's is run here, and no garbage collected: so what is borrowed stays. */
enum { FAILED = -1, UNTOLD, EQUAL };

/* So many characters are looked at on the stack, and so many names that were told equal are kept: the dicts of
   one text share their names. */
enum { FEW_CHARACTERS = 64, KNOWN_NAMES = 32 };

typedef struct {
    PyObject *one, *other;
} pair;

/* By a member's name, or by an index where that is NULL. */
typedef struct {
    PyObject *name;
    Py_ssize_t index;
} step;

typedef struct {
    PyCFunction is_ascii;
    long levels, level, looked;
    long length; /* of the way to the least parts that hold each pair of which nothing is told; -1 where there is none */
    step way[JSON_PATCH_MOST_LEVELS];
    pair known[KNOWN_NAMES];
} search;

static int untold(search *s)
{
    if (s->length < 0 || s->length > s->level)
        s->length = s->level;
    return UNTOLD;
}

static int has_no_surrogate(PyObject *string)
{
    Py_UCS4 few[FEW_CHARACTERS], *all;
    Py_ssize_t length = PyUnicode_GetLength(string);
    int found = 0;
    all = length > FEW_CHARACTERS ? PyUnicode_AsUCS4Copy(string) : PyUnicode_AsUCS4(string, few, FEW_CHARACTERS, 0);
    if (!all)
        return FAILED;
    for (Py_ssize_t i = 0; i < length; i++)
        found |= all[i] >= 0xD800 && all[i] <= 0xDFFF;
    if (all != few)
        PyMem_Free(all);
    return found ? UNTOLD : EQUAL;
}

/* EQUAL, where a string has no surrogate: of some that have no text says it, and a text of two says another. */
static inline int is_plain(const search *s, PyObject *string)
{
    PyObject *told = s->is_ascii(string, NULL);
    Py_XDECREF(told);
    if (told == Py_True)
        return EQUAL;
    return told ? has_no_surrogate(string) : FAILED;
}

static inline int same_strings(const search *s, PyObject *one, PyObject *other)
{
    if (one != other && PyUnicode_Compare(one, other) != 0)
        return PyErr_Occurred() ? FAILED : UNTOLD;
    return is_plain(s, one);
}

static int same_names(search *s, PyObject *one, PyObject *other)
{
    pair *known = &s->known[(size_t)one / sizeof(PyObject) % KNOWN_NAMES];
    int told;
    if (known->one == one && known->other == other)
        return EQUAL;
    if (!PyUnicode_CheckExact(one) || !PyUnicode_CheckExact(other))
        return UNTOLD;
    told = same_strings(s, one, other);
    if (told == EQUAL)
        *known = (pair){one, other};
    return told;
}

/* Of ints that are longer, Python may not write the digits. */
static int same_ints(PyObject *one, PyObject *other)
{
    int over, over_too;
    long long number = PyLong_AsLongLongAndOverflow(one, &over);
    return number == PyLong_AsLongLongAndOverflow(other, &over_too) && !over && !over_too ? EQUAL : UNTOLD;
}

static inline int same_leaves(const search *s, PyObject *one, PyObject *other)
{
    if (Py_TYPE(one) != Py_TYPE(other))
        return UNTOLD;
    if (PyUnicode_CheckExact(one))
        return same_strings(s, one, other);
    if (PyLong_CheckExact(one))
        return same_ints(one, other);
    if (PyFloat_CheckExact(one)) {
        double number = PyFloat_AsDouble(one);
        /* nan and the infinities, less themselves, are no zero */
        return number == PyFloat_AsDouble(other) && number - number == 0 ? EQUAL : UNTOLD;
    }
    return one == other && (one == Py_None || PyBool_Check(one)) ? EQUAL : UNTOLD;
}

static int same_containers(search *s, PyObject *one, PyObject *other);

static int goes_down(search *s, step by, PyObject *one, PyObject *other)
{
    long before = s->length;
    int told;
    s->level++;
    told = same_containers(s, one, other);
    s->level--;
    if (told != UNTOLD)
        return told;
    if (before >= 0)
        return untold(s);
    s->way[s->level] = by;
    return EQUAL;
}

/* Looks at a pair below, and is EQUAL also of the first of which nothing is told: what stands beside it is looked
   at. Of a second one the rest is left aside, so that each pair is looked at once. */
static inline int goes_on(search *s, step by, PyObject *one, PyObject *other)
{
    int told = same_leaves(s, one, other);
    return told == UNTOLD ? goes_down(s, by, one, other) : told;
}

static int same_lists(search *s, PyObject *one, PyObject *other)
{
    Py_ssize_t size = PyList_Size(one);
    int told = EQUAL;
    if (PyList_Size(other) != size)
        return untold(s);
    for (Py_ssize_t i = 0; told == EQUAL && i < size; i++)
        told = goes_on(s, (step){NULL, i}, PyList_GetItem(one, i), PyList_GetItem(other, i));
    return told;
}

static int has_strings_as_names(PyObject *dict)
{
    PyObject *name;
    Py_ssize_t at = 0;
    while (PyDict_Next(dict, &at, &name, NULL))
        if (!PyUnicode_CheckExact(name))
            return 0;
    return 1;
}

/* The members from a place on, each beside the other's of its name. */
static int same_by_name(search *s, PyObject *one, PyObject *other, Py_ssize_t at)
{
    PyObject *name, *value, *beside;
    int told = EQUAL;
    if (!has_strings_as_names(one) || !has_strings_as_names(other))
        return untold(s);
    while (told == EQUAL && PyDict_Next(one, &at, &name, &value)) {
        told = is_plain(s, name);
        beside = PyDict_GetItemWithError(other, name);
        if (told == FAILED || PyErr_Occurred())
            return FAILED;
        told = told == EQUAL && beside ? goes_on(s, (step){name, 0}, value, beside) : untold(s);
    }
    return told;
}

/* Mostly both dicts have their members in one order. */
static int same_dicts(search *s, PyObject *one, PyObject *other)
{
    PyObject *name, *value, *beside_name, *beside;
    Py_ssize_t at = 0, beside_at = 0, size = PyDict_Size(one);
    int told = EQUAL;
    if (PyDict_Size(other) != size)
        return untold(s);
    for (; told == EQUAL && size > 0; size--) {
        Py_ssize_t from = at;
        PyDict_Next(one, &at, &name, &value);
        PyDict_Next(other, &beside_at, &beside_name, &beside);
        told = same_names(s, name, beside_name);
        if (told == UNTOLD)
            return same_by_name(s, one, other, from);
        if (told == EQUAL)
            told = goes_on(s, (step){name, 0}, value, beside);
    }
    return told;
}

static int same_containers(search *s, PyObject *one, PyObject *other)
{
    long before = s->length;
    int is_dict = PyDict_CheckExact(one), told;
    if (Py_TYPE(one) != Py_TYPE(other) || !(is_dict || PyList_CheckExact(one)))
        return untold(s);
    s->looked += 1 + (long)(size_of(one) / ITEMS);
    if (s->level >= s->levels || s->looked > MOST_LOOKED_THROUGH)
        return untold(s);
    told = is_dict ? same_dicts(s, one, other) : same_lists(s, one, other);
    return told == EQUAL && s->length != before ? UNTOLD : told;
}

static int is_added(PyObject *way, const step *by)
{
    PyObject *index = by->name ? NULL : PyLong_FromSsize_t(by->index);
    int is_done = (by->name || index) && PyList_Append(way, by->name ? by->name : index) == 0;
    Py_XDECREF(index);
    return is_done;
}

static PyObject *call_differs_at(PyObject *module, PyObject *args)
{
    const state *here = PyModule_GetState(module);
    search s = {.is_ascii = here->is_ascii, .length = -1};
    PyObject *one, *other, *way;
    int told;
    if (!PyArg_ParseTuple(args, "OOl", &one, &other, &s.levels))
        return NULL;
    if (s.levels > JSON_PATCH_MOST_LEVELS)
        s.levels = JSON_PATCH_MOST_LEVELS;
    /* before the look: to make one may collect garbage */
    way = PyList_New(0);
    told = way ? same_leaves(&s, one, other) : FAILED;
    if (told == UNTOLD)
        told = same_containers(&s, one, other);
    for (long i = 0; told == UNTOLD && i < s.length; i++)
        if (!is_added(way, &s.way[i]))
            told = FAILED;
    if (told == UNTOLD)
        return way;
    Py_XDECREF(way);
    if (told == FAILED)
        return NULL;
    Py_RETURN_NONE;
}

/* ---- the module */

#define FUNCTION(name, takes) \
    static PyObject *call_##name(PyObject *module, PyObject *args) { return takes(module, args, name); }
FUNCTION(apply, of_two)
FUNCTION(record, of_two)
FUNCTION(merge, of_two)
FUNCTION(diff, of_two)
FUNCTION(merge_diff, of_two)
FUNCTION(merge_join, of_two)
FUNCTION(value, of_two)
FUNCTION(check, looks_at)
FUNCTION(open_kept, opens)
FUNCTION(update, changes)
FUNCTION(update_recorded, changes)
FUNCTION(update_merged, changes)
FUNCTION(undo, takes_back)
FUNCTION(inverse, read_from)
FUNCTION(kept_text, read_from)
FUNCTION(diff_to, found_in)
FUNCTION(value_at, found_in)

static PyObject *call_close(PyObject *module, PyObject *args)
{
    arguments given = {0};
    if (!takes_kept(module, args, "O!", &given))
        return NULL;
    json_patch_close(given.kept);
    Py_RETURN_NONE;
}

static PyObject *call_kind_text(PyObject *module, PyObject *args)
{
    unsigned char kind;
    (void)module;
    return PyArg_ParseTuple(args, "b", &kind) ? PyUnicode_FromString(json_patch_kind_text(kind)) : NULL;
}

static PyMethodDef METHODS[] = {
    {"apply", call_apply, METH_VARARGS, NULL},
    {"record", call_record, METH_VARARGS, NULL},
    {"merge", call_merge, METH_VARARGS, NULL},
    {"diff", call_diff, METH_VARARGS, NULL},
    {"merge_diff", call_merge_diff, METH_VARARGS, NULL},
    {"merge_join", call_merge_join, METH_VARARGS, NULL},
    {"value", call_value, METH_VARARGS, NULL},
    {"check", call_check, METH_VARARGS, NULL},
    {"open", call_open_kept, METH_VARARGS, NULL},
    {"update", call_update, METH_VARARGS, NULL},
    {"update_recorded", call_update_recorded, METH_VARARGS, NULL},
    {"update_merged", call_update_merged, METH_VARARGS, NULL},
    {"undo", call_undo, METH_VARARGS, NULL},
    {"inverse", call_inverse, METH_VARARGS, NULL},
    {"text", call_kept_text, METH_VARARGS, NULL},
    {"diff_to", call_diff_to, METH_VARARGS, NULL},
    {"value_at", call_value_at, METH_VARARGS, NULL},
    {"close", call_close, METH_VARARGS, NULL},
    {"kind_text", call_kind_text, METH_VARARGS, NULL},
    {"is_deeper", call_is_deeper, METH_VARARGS, NULL},
    {"differs_at", call_differs_at, METH_VARARGS, NULL},
    {NULL, NULL, 0, NULL},
};

static const struct {
    const char *name;
    long number;
} NUMBERS[] = {
    {"OK", JSON_PATCH_OK},
    {"REFUSED", JSON_PATCH_REFUSED},
    {"NO_DOCUMENT", JSON_PATCH_NO_DOCUMENT},
    {"NO_PATCH", JSON_PATCH_NO_PATCH},
    {"CLOSED", JSON_PATCH_CLOSED},
    {"NO_POINTER", JSON_PATCH_NO_POINTER},
    {"NOTHING", JSON_PATCH_NOTHING},
    {"OVER", JSON_PATCH_OVER},
    {"IMPOSSIBLE", JSON_PATCH_IMPOSSIBLE},
    {"DIFF_MOVES", JSON_PATCH_DIFF_MOVES},
    {"DIFF_GUARDED", JSON_PATCH_DIFF_GUARDED},
};

static void handle_goes(PyObject *self)
{
    PyTypeObject *type = Py_TYPE(self);
    ((freefunc)PyType_GetSlot(type, Py_tp_free))(self);
    Py_DECREF(type);
}

static PyType_Slot HANDLE_SLOTS[] = {
    {Py_tp_doc, "Where the library keeps a document, or none."},
    {Py_tp_new, PyType_GenericNew},
    {Py_tp_dealloc, handle_goes},
    {0, NULL},
};
static PyType_Spec HANDLE = {"json_patch._native.Handle", sizeof(handle), 0, Py_TPFLAGS_DEFAULT, HANDLE_SLOTS};

/* Whether the library's code can run: that of this file needs no more than any x86-64 has. */
static int can_run(void)
{
    __builtin_cpu_init();
    return __builtin_cpu_supports("ssse3") && __builtin_cpu_supports("sse4.1") && __builtin_cpu_supports("sse4.2") &&
           __builtin_cpu_supports("popcnt");
}

/* For a Python in which str.isascii takes something else. */
static PyObject *never(PyObject *self, PyObject *args)
{
    (void)self;
    (void)args;
    Py_RETURN_FALSE;
}

/* By its function a string is asked in less time than two are compared, which a call of the object would take. */
static PyCFunction is_ascii(void)
{
    PyObject *empty = PyUnicode_FromString(""), *method = empty ? PyObject_GetAttrString(empty, "isascii") : NULL;
    PyCFunction found = never;
    if (method && PyCFunction_GetFlags(method) == METH_NOARGS)
        found = PyCFunction_GetFunction(method);
    PyErr_Clear();
    Py_XDECREF(method);
    Py_XDECREF(empty);
    return found;
}

static int added(PyObject *module, const char *name, PyObject *object)
{
    Py_XINCREF(object);
    if (object && PyModule_AddObject(module, name, object) == 0)
        return 1;
    Py_XDECREF(object);
    return 0;
}

static int executed(PyObject *module)
{
    state *here = PyModule_GetState(module);
    if (!can_run()) {
        PyErr_SetString(PyExc_ImportError, "json_patch needs a processor with x86-64-v2");
        return -1;
    }
    here->fault = PyErr_NewException("json_patch._native.Fault", NULL, NULL);
    here->handle = (PyTypeObject *)PyType_FromSpec(&HANDLE);
    here->is_ascii = is_ascii();
    if (!added(module, "Fault", here->fault) || !added(module, "Handle", (PyObject *)here->handle))
        return -1;
    for (size_t i = 0; i < sizeof NUMBERS / sizeof *NUMBERS; i++)
        if (PyModule_AddIntConstant(module, NUMBERS[i].name, NUMBERS[i].number) < 0)
            return -1;
    return PyModule_AddStringConstant(module, "VERSION", json_patch_version());
}

static int traversed(PyObject *module, visitproc visit, void *arg)
{
    state *here = PyModule_GetState(module);
    if (here) { /* Python 3.8 asks before there is one */
        Py_VISIT(here->fault);
        Py_VISIT(here->handle);
    }
    return 0;
}

static int cleared(PyObject *module)
{
    state *here = PyModule_GetState(module);
    if (here) {
        Py_CLEAR(here->fault);
        Py_CLEAR(here->handle);
    }
    return 0;
}

static void module_goes(void *module)
{
    cleared(module);
}

static PyModuleDef_Slot SLOTS[] = {{Py_mod_exec, executed}, {0, NULL}};

static PyModuleDef MODULE = {
    PyModuleDef_HEAD_INIT, "_native", "The calls of json_patch.h.", sizeof(state), METHODS, SLOTS, traversed, cleared,
    module_goes,
};

PyMODINIT_FUNC PyInit__native(void)
{
    return PyModuleDef_Init(&MODULE);
}
