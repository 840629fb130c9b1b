// CPython as a library of a page: the host calls `begin` once, and then `answer` for each message (lab/vecmon_lab/playground/main.py).
//
// Python calls its host by the module `_host`. All functions run to their end; nothing waits.
#define PY_SSIZE_T_CLEAN
#include <Python.h>
#include <malloc.h>

#define HOST(name) __attribute__((import_module("host"), import_name(#name)))
#define EXPORT(name) __attribute__((export_name(#name)))

HOST(start) void host_start(int number, const char *words, int size);    // a machine with this number; one argument in a line
HOST(machine) int host_machine(int number, const char *lines, int size); // the size of its answers, -1 if it has ended
HOST(take) void host_take(char *answers);                                // the answers of the last call
HOST(end) void host_end(int number);
HOST(file) void host_file(const char *path, int path_size, const char *content, int size);
HOST(keep) void host_keep(const char *entry, int size); // a text to save, with its name, in JSON

static PyObject *start(PyObject *self, PyObject *arguments)
{
    int number;
    const char *words;
    Py_ssize_t size;
    if (!PyArg_ParseTuple(arguments, "is#", &number, &words, &size))
        return NULL;
    host_start(number, words, (int)size);
    Py_RETURN_NONE;
}

static PyObject *ask(PyObject *self, PyObject *arguments)
{
    int number;
    const char *lines;
    Py_ssize_t size;
    if (!PyArg_ParseTuple(arguments, "iy#", &number, &lines, &size))
        return NULL;
    int answered = host_machine(number, lines, (int)size);
    if (answered < 0)
        Py_RETURN_NONE;
    PyObject *answers = PyBytes_FromStringAndSize(NULL, answered);
    if (answers)
        host_take(PyBytes_AS_STRING(answers));
    return answers;
}

static PyObject *end(PyObject *self, PyObject *arguments)
{
    int number;
    if (!PyArg_ParseTuple(arguments, "i", &number))
        return NULL;
    host_end(number);
    Py_RETURN_NONE;
}

static PyObject *file(PyObject *self, PyObject *arguments)
{
    const char *path, *content;
    Py_ssize_t path_size, size;
    if (!PyArg_ParseTuple(arguments, "s#y#", &path, &path_size, &content, &size))
        return NULL;
    host_file(path, (int)path_size, content, (int)size);
    Py_RETURN_NONE;
}

static PyObject *keep(PyObject *self, PyObject *arguments)
{
    const char *entry;
    Py_ssize_t size;
    if (!PyArg_ParseTuple(arguments, "s#", &entry, &size))
        return NULL;
    host_keep(entry, (int)size);
    Py_RETURN_NONE;
}

static PyMethodDef methods[] = {
    {"start", start, METH_VARARGS, NULL}, {"ask", ask, METH_VARARGS, NULL},   {"end", end, METH_VARARGS, NULL},
    {"file", file, METH_VARARGS, NULL},   {"keep", keep, METH_VARARGS, NULL}, {NULL},
};
static struct PyModuleDef module = {PyModuleDef_HEAD_INIT, "_host", NULL, -1, methods};

static PyObject *initialize(void)
{
    return PyModule_Create(&module);
}

static int zeroes = 1; // whether freed memory is set to zero, so that a snapshot compresses well

static void *allocate(void *context, size_t size)
{
    return malloc(size ? size : 1);
}

static void *allocate_zeroed(void *context, size_t count, size_t size)
{
    return count && size ? calloc(count, size) : calloc(1, 1);
}

static void release(void *context, void *place)
{
    if (zeroes && place) {
        memset(place, 0, malloc_usable_size(place));
        __asm__ volatile("" : : "r"(place) : "memory"); // else the compiler removes the memset
    }
    free(place);
}

static void *resize(void *context, void *place, size_t size)
{
    if (!zeroes || !place)
        return realloc(place, size ? size : 1);
    size_t before = malloc_usable_size(place);
    void *moved = allocate(context, size);
    if (moved) {
        memcpy(moved, place, before < size ? before : size);
        release(context, place);
    }
    return moved;
}

static void set_allocators(void)
{
    PyMemAllocatorEx own = {NULL, allocate, allocate_zeroed, resize, release};
    PyMem_SetAllocator(PYMEM_DOMAIN_RAW, &own);
    PyMem_SetAllocator(PYMEM_DOMAIN_MEM, &own);
    PyMem_SetAllocator(PYMEM_DOMAIN_OBJ, &own);
}

static PyObject *function, *last; // the function that answers; and its last answer, as bytes

// Allocates a number of bytes, which `answer` frees.
EXPORT(room) char *room(int size)
{
    return malloc(size);
}

// Ends the preparation of a snapshot: from here on freed memory keeps its content.
EXPORT(settle) void settle(void)
{
    zeroes = 0;
}

// Starts Python with the library in /lib.zip, and runs a program that defines a function `answer`. Returns 0, or another number after a
// message on standard error.
EXPORT(begin) int begin(const char *program)
{
    set_allocators();
    PyConfig config;
    PyConfig_InitIsolatedConfig(&config);
    config.site_import = config.write_bytecode = config.install_signal_handlers = config.pathconfig_warnings = 0;
    config.use_hash_seed = 1; // so that the same files give the same memory
    config.hash_seed = 0;
    config.module_search_paths_set = 1;
    PyWideStringList_Append(&config.module_search_paths, L"/lib.zip");
    PyConfig_SetString(&config, &config.home, L"/");
    PyConfig_SetString(&config, &config.executable, L"/python");
    PyConfig_SetString(&config, &config.stdlib_dir, L"/lib");
    PyImport_AppendInittab("_host", initialize);
    PyStatus status = Py_InitializeFromConfig(&config);
    PyConfig_Clear(&config);
    if (PyStatus_Exception(status)) {
        fprintf(stderr, "%s\n", status.err_msg ? status.err_msg : "Python can't be started");
        return 2;
    }
    if (PyRun_SimpleString(program))
        return 1;
    function = PyObject_GetAttrString(PyImport_AddModule("__main__"), "answer");
    return function == NULL;
}

// Returns the size of the answer to a message in UTF-8, which lies in `room`; -1 without an answer.
EXPORT(answer) int answer(char *message, int size)
{
    PyObject *text = PyUnicode_DecodeUTF8(message, size, "replace");
    release(NULL, message);
    PyObject *answered = text ? PyObject_CallOneArg(function, text) : NULL;
    Py_XDECREF(text);
    Py_CLEAR(last);
    if (answered)
        last = PyUnicode_AsEncodedString(answered, "utf-8", "replace");
    Py_XDECREF(answered);
    if (!last) {
        PyErr_Print();
        return -1;
    }
    return (int)PyBytes_GET_SIZE(last);
}

// The bytes of the last answer.
EXPORT(answered) const char *answered(void)
{
    return PyBytes_AS_STRING(last);
}
