/* Raises the errors of intaglio.errors. */
#include <stdarg.h>
#include "shared.h"

PyObject *raise_by(const char *name, const char *format, ...) {
    va_list given;
    va_start(given, format);
    PyObject *errors = PyImport_ImportModule("intaglio.errors");
    PyObject *make = errors ? PyObject_GetAttrString(errors, name) : NULL;
    PyObject *arguments = make ? Py_VaBuildValue(format, given) : NULL;
    PyObject *error = arguments ? PyObject_CallObject(make, arguments) : NULL;
    if (error) PyErr_SetObject((PyObject *)Py_TYPE(error), error);
    va_end(given);
    Py_XDECREF(error);
    Py_XDECREF(arguments);
    Py_XDECREF(make);
    Py_XDECREF(errors);
    return NULL;
}

PyObject *refused_at(uint32_t code, Py_ssize_t position) {
    return position < 0 ? raise_by("refusal", "(I)", (unsigned int)code) : raise_by("refusal", "(In)", (unsigned int)code, position);
}

PyObject *refused(uint32_t code) { return refused_at(code, -1); }

PyObject *done_or_refused(uint32_t code) {
    if (code) return refused(code);
    Py_RETURN_NONE;
}

PyObject *wrong_type(uint32_t kind, PyObject *object, Py_ssize_t position, const char *advice) {
    const char *wanted = has_texts(kind) ? "a string" : "bytes", *type = Py_TYPE(object)->tp_name;
    if (position < 0) return PyErr_Format(PyExc_TypeError, "%s, not %.200s%s", wanted, type, advice);
    return PyErr_Format(PyExc_TypeError, "%s, not %.200s, at position %zd%s", wanted, type, position, advice);
}

bool is_absent(void) {
    if (!PyErr_ExceptionMatches(PyExc_UnicodeEncodeError)) return false;
    PyErr_Clear();
    return true;
}

PyObject *not_spelled(Py_ssize_t position) {
    if (!is_absent()) return NULL;
    return position < 0 ? raise_by("lone_surrogate", "()") : raise_by("lone_surrogate", "(n)", position);
}
