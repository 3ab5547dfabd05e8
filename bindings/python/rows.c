/* sim3.rows: the functions of sim3.h over all rows of arrays, and a fast action on a list of points; for the Python
 * package, whose arrays.py and points.py prepare the arguments. It is trusted, like all C here: loops over the proved
 * single functions, and checks of the size and the type of every buffer. bindings/python/backend.py compiles it. The
 * library itself is not in it: the package loads that first. */
#define PY_SSIZE_T_CLEAN
#include <Python.h>

#include <string.h>

#include "sim3.h"
#include "sim3_host.h"
#include "sim3_host_f32.h"

/* The numbers of a list, row after row; a step of 0 is one list for all rows. */
typedef struct {
    char *at;
    size_t step;
} list;

typedef uint32_t row_function(const list *in, const list *out, size_t row);

#define REAL double
#define CALL(name) sim3_##name
#define HOST(name) sim3_host_##name
#define ROW(name) row_##name
#include "rows_of_width.h"

#define REAL float
#define CALL(name) sim3_##name##_f32
#define HOST(name) sim3_host_##name##_f32
#define ROW(name) row_##name##_f32
#include "rows_of_width.h"

/* The numbers of a list: r of the width, R of the width or none, h frames, q unsigned and i signed integers of 64
 * bits. */
typedef struct {
    char kind; /* r, R, h, q, i */
    int count;
} form;

enum { MOST_IN = 5, MOST_OUT = 3 };

/* The functions over doubles only. */
#define AT(lists, i, type) ((type *)(lists[i].at + row * lists[i].step))
static uint32_t row_root(const list *in, const list *out, size_t row) {
    return sim3_root(*AT(in, 0, double), AT(out, 0, uint64_t), 2, AT(out, 1, int64_t), 1, AT(out, 2, double), 1);
}
static uint32_t row_compare_tangents(const list *in, const list *out, size_t row) {
    return sim3_compare_tangents(AT(in, 0, uint64_t), 7, AT(in, 1, uint64_t), 7, AT(out, 0, int64_t), 1);
}

/* The running join: its numbers and its state are the last two lists, one for all rows; both are written. */
static uint32_t row_push(const list *in, const list *out, size_t row) {
    double *const running = (double *)in[3].at;
    uint16_t *const state = (uint16_t *)in[4].at;
    const double up = in[2].at ? *AT(in, 2, double) : sim3_host_up(running);
    const uint32_t refused = sim3_running_push(running, 8, state, 5, AT(in, 0, double), 8, AT(in, 1, uint16_t), 2, up);
    if (refused) return refused;
    memcpy(AT(out, 0, double), running, 8 * sizeof(double));
    memcpy(AT(out, 1, uint16_t), state, 2 * sizeof(uint16_t)); /* from and to come first */
    return 0;
}

typedef struct {
    const char *name;
    row_function *rows[2]; /* of doubles, of singles */
    form in[MOST_IN], out[MOST_OUT];
} function;

#define BOTH(name) #name, {row_##name, row_##name##_f32}
static const function functions[] = {
    {BOTH(exp), {{'r', 7}, {'R', 10}, {'h', 2}}, {{'r', 8}, {'h', 2}}},
    {BOTH(mul), {{'r', 8}, {'h', 2}, {'r', 8}, {'h', 2}, {'R', 1}}, {{'r', 8}, {'h', 2}}},
    {BOTH(mul_inv), {{'r', 8}, {'h', 2}, {'r', 8}, {'h', 2}, {'R', 1}}, {{'r', 8}, {'h', 2}}},
    {BOTH(inv_mul), {{'r', 8}, {'h', 2}, {'r', 8}, {'h', 2}, {'R', 1}}, {{'r', 8}, {'h', 2}}},
    {BOTH(inverse), {{'r', 8}, {'h', 2}, {'R', 1}}, {{'r', 8}, {'h', 2}}},
    {BOTH(renormalize), {{'r', 8}}, {{'r', 8}}},
    {BOTH(act_many), {{'r', 8}, {'R', 1}, {'r', 3}}, {{'r', 3}}},
    {BOTH(act_each), {{'r', 8}, {'R', 1}, {'r', 3}}, {{'r', 3}}},
    {BOTH(act_jacobians_right), {{'r', 8}, {'R', 1}, {'r', 3}}, {{'r', 30}}},
    {BOTH(act_jacobians_left), {{'r', 8}, {'R', 1}, {'r', 3}}, {{'r', 30}}},
    {BOTH(scaled_pair), {{'r', 1}, {'r', 1}, {'R', 10}}, {{'r', 20}}},
    {BOTH(coeffs_armed), {{'r', 1}, {'r', 1}, {'R', 10}}, {{'r', 12}}},
    {BOTH(armed_pair), {{'r', 1}, {'r', 1}, {'R', 10}}, {{'r', 24}}},
    {BOTH(block_pair), {{'r', 7}, {'R', 10}, {'R', 9}, {'R', 9}}, {{'r', 124}}},
    {BOTH(block_inverse), {{'r', 31}}, {{'r', 31}}},
    {BOTH(adjoint), {{'r', 8}, {'R', 1}}, {{'r', 31}}},
    {BOTH(compose_jacobians_right), {{'r', 8}, {'R', 1}}, {{'r', 62}}},
    {BOTH(compose_jacobians_left), {{'r', 8}, {'R', 1}}, {{'r', 62}}},
    {BOTH(inverse_jacobian_right), {{'r', 8}, {'R', 1}}, {{'r', 31}}},
    {BOTH(inverse_jacobian_left), {{'r', 8}, {'R', 1}}, {{'r', 31}}},
    {BOTH(nearest_arm), {{'r', 1}, {'r', 1}}, {{'q', 3}}},
    {"root", {row_root, NULL}, {{'r', 1}}, {{'q', 2}, {'i', 1}, {'r', 1}}},
    {"compare_tangents", {row_compare_tangents, NULL}, {{'q', 7}, {'q', 7}}, {{'i', 1}}},
    {"Running.push", {row_push, NULL}, {{'r', 8}, {'h', 2}, {'R', 1}, {'r', 8}, {'h', 5}}, {{'r', 8}, {'h', 2}}},
};

/* The size of a number of a kind, and its letter in a buffer's format. */
static size_t size_of(char kind, int single) { return kind == 'h' ? 2 : kind == 'q' || kind == 'i' || !single ? 8 : 4; }
static int has_format(const char *format, char kind, int single) {
    if (!format) return 0;
    if (*format == '<' || *format == '=' || *format == '@') format++;
    const char *letters = kind == 'h' ? "H" : kind == 'q' ? "QL" : kind == 'i' ? "ql" : single ? "f" : "d";
    return *format && strchr(letters, *format) && !format[1];
}

/* Gets a buffer of `rows` lists of a form, or, if it is only read, of one list for all rows. 0, or -1 with an
 * exception. */
static int get_list(PyObject *from, form expected, int single, Py_ssize_t rows, int written, Py_buffer *view,
                    list *result) {
    const size_t size = size_of(expected.kind, single), step = size * (size_t)expected.count;
    result->at = NULL, result->step = 0;
    if (expected.kind == 'R' && from == Py_None) return 0;
    if (PyObject_GetBuffer(from, view, PyBUF_FORMAT | PyBUF_C_CONTIGUOUS | (written ? PyBUF_WRITABLE : 0))) return -1;
    if (!has_format(view->format, expected.kind, single) || (size_t)view->buf % size) {
        PyErr_SetString(PyExc_TypeError, "sim3.rows: a buffer has numbers of another type");
        return -1;
    }
    result->at = view->buf, result->step = (size_t)view->len == step * (size_t)rows ? step : 0;
    if (result->step || rows == 0 || (!written && (size_t)view->len == step)) return 0;
    PyErr_SetString(PyExc_ValueError, "sim3.rows: a buffer has another length");
    return -1;
}

/* The row of a refusal: NaNs, and zeros for frames and integers. */
static void blank(const form *forms, const list *out, int single, size_t row) {
    for (int i = 0; i < MOST_OUT && forms[i].kind; i++) {
        char *at = out[i].at + row * out[i].step;
        memset(at, 0, out[i].step);
        for (int k = 0; forms[i].kind == 'r' && k < forms[i].count; k++) {
            if (single)
                ((float *)at)[k] = NAN;
            else
                ((double *)at)[k] = NAN;
        }
    }
}

static void call_rows(const function *called, int single, const list *in, const list *out, Py_ssize_t rows,
                      uint32_t *refused) {
    for (size_t row = 0; row < (size_t)rows; row++) {
        refused[row] = called->rows[single](in, out, row);
        if (refused[row]) blank(called->out, out, single, row);
    }
}

static const function *find_function(const char *name, int single) {
    for (size_t i = 0; i < sizeof functions / sizeof *functions; i++)
        if (!strcmp(functions[i].name, name) && functions[i].rows[single]) return &functions[i];
    PyErr_Format(PyExc_KeyError, "%s", name);
    return NULL;
}

/* Gets the buffers of a tuple as lists; `count` is how many views must be released. */
static int get_lists(PyObject *from, const form *forms, int most, int single, Py_ssize_t rows, int written,
                     Py_buffer *views, list *results, int *count) {
    int expected = 0;
    while (expected < most && forms[expected].kind) expected++;
    if (!PyTuple_Check(from) || PyTuple_GET_SIZE(from) != expected) {
        PyErr_SetString(PyExc_TypeError, "sim3.rows: another number of buffers");
        return -1;
    }
    for (int i = 0; i < expected; i++) {
        views[i].obj = NULL;
        *count = i + 1;
        if (get_list(PyTuple_GET_ITEM(from, i), forms[i], single, rows, written, &views[i], &results[i])) return -1;
    }
    return 0;
}

static void release_views(Py_buffer *views, int count) {
    for (int i = 0; i < count; i++)
        if (views[i].obj) PyBuffer_Release(&views[i]);
}

/* run(name, single, rows, inputs, outs, refused): a function over all rows. The outs share no bytes with the inputs. */
static PyObject *run(PyObject *self, PyObject *arguments) {
    const char *name;
    int single, in_count = 0, out_count = 0, good = 0;
    Py_ssize_t rows;
    PyObject *inputs, *outs, *numbers;
    Py_buffer in_views[MOST_IN], out_views[MOST_OUT], refused;
    list in[MOST_IN], out[MOST_OUT];
    (void)self;
    if (!PyArg_ParseTuple(arguments, "spnOOO", &name, &single, &rows, &inputs, &outs, &numbers)) return NULL;
    const function *called = find_function(name, single);
    if (!called || PyObject_GetBuffer(numbers, &refused, PyBUF_C_CONTIGUOUS | PyBUF_WRITABLE)) return NULL;
    if (refused.len != rows * 4)
        PyErr_SetString(PyExc_ValueError, "sim3.rows: refused has another length");
    else if (!get_lists(inputs, called->in, MOST_IN, single, rows, 0, in_views, in, &in_count) &&
             !get_lists(outs, called->out, MOST_OUT, single, rows, 1, out_views, out, &out_count)) {
        Py_BEGIN_ALLOW_THREADS;
        call_rows(called, single, in, out, rows, refused.buf);
        Py_END_ALLOW_THREADS;
        good = 1;
    }
    release_views(in_views, in_count);
    release_views(out_views, out_count);
    PyBuffer_Release(&refused);
    if (!good) return NULL;
    Py_RETURN_NONE;
}

/* The eight numbers of a list or a tuple; whether they are such. */
static int sequence_numbers(PyObject *x, double numbers[8]) {
    if (PySequence_Fast_GET_SIZE(x) != 8) return 0;
    for (Py_ssize_t i = 0; i < 8; i++) {
        numbers[i] = PyFloat_AsDouble(PySequence_Fast_GET_ITEM(x, i));
        if (numbers[i] == -1 && PyErr_Occurred()) return 0;
    }
    return 1;
}

/* The eight numbers of a pose: a buffer of doubles, a list or a tuple, or a Pose whose first field is one; whether they
 * are such. */
static int pose_numbers(PyObject *x, double numbers[8]) {
    Py_buffer view;
    if (PyTuple_Check(x) && PyTuple_GET_SIZE(x) == 3) x = PyTuple_GET_ITEM(x, 0);
    if (PyList_CheckExact(x) || PyTuple_CheckExact(x)) return sequence_numbers(x, numbers);
    if (!PyObject_CheckBuffer(x) || PyObject_GetBuffer(x, &view, PyBUF_FORMAT | PyBUF_C_CONTIGUOUS)) return 0;
    const int good = view.len == 8 * sizeof(double) && has_format(view.format, 'r', 0);
    if (good) memcpy(numbers, view.buf, 8 * sizeof(double));
    PyBuffer_Release(&view);
    return good;
}

/* move(each, x, up, pts, out): moves a list of points in doubles into out, a buffer of the same length that shares no
 * bytes with it. True; or False, with nothing written, if an argument has another type or is refused: points.py then
 * checks all of them. */
static PyObject *move(PyObject *self, PyObject *const *words, Py_ssize_t count) {
    double x[8], up;
    Py_buffer pts, out;
    int good = 0;
    (void)self;
    if (count != 5 || !pose_numbers(words[1], x)) goto other;
    up = words[2] == Py_None ? sim3_host_up(x) : PyFloat_CheckExact(words[2]) ? PyFloat_AS_DOUBLE(words[2]) : NAN;
    if (words[2] != Py_None && !PyFloat_CheckExact(words[2])) goto other;
    if (PyObject_GetBuffer(words[3], &pts, PyBUF_FORMAT | PyBUF_C_CONTIGUOUS)) goto other;
    if (!PyObject_GetBuffer(words[4], &out, PyBUF_FORMAT | PyBUF_C_CONTIGUOUS | PyBUF_WRITABLE)) {
        const size_t numbers = (size_t)pts.len / sizeof(double);
        const int shaped = pts.ndim == 1 || (pts.ndim > 1 && pts.shape[pts.ndim - 1] == 3);
        if (shaped && pts.len == out.len && has_format(pts.format, 'r', 0) && has_format(out.format, 'r', 0) &&
            !((size_t)pts.buf % 8) && !((size_t)out.buf % 8))
            good = !(words[0] == Py_True ? sim3_act_each : sim3_act_many)(x, 8, up, pts.buf, numbers, out.buf, numbers);
        PyBuffer_Release(&out);
    }
    PyBuffer_Release(&pts);
other:
    PyErr_Clear();
    return PyBool_FromLong(good);
}

static PyMethodDef methods[] = {
    {"run", run, METH_VARARGS, "run(name, single, rows, inputs, outs, refused): a function over all rows"},
    {"move", (PyCFunction)(void (*)(void))move, METH_FASTCALL,
     "move(each, x, up, pts, out): whether a list of points was moved"},
    {NULL, NULL, 0, NULL},
};

static struct PyModuleDef module = {
    PyModuleDef_HEAD_INIT, "rows", "Loops over the functions of sim3.h.", -1, methods, NULL, NULL, NULL, NULL};

PyMODINIT_FUNC PyInit_rows(void);
PyMODINIT_FUNC PyInit_rows(void) { return PyModule_Create(&module); }
