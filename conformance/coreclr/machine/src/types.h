// The objects of a script as CoreCLR's collector sees them: a type for each number of fields, with and without a finalizer.
#pragma once

#include <string>

#include "engine.h"

// An object: its name, its value, its fields. The collector knows the type and the fields alone.
struct Cell : Object {
    uint64_t name;
    uint64_t value;
    Object* fields[1];
};

const int MOST_FIELDS = 61;

// The type of objects with so many fields.
MethodTable* type_of(int fields, bool finalizable);

// A new object with null fields and value 0.
Cell* make_object(int fields, bool finalizable, uint64_t name);

// The number of fields of an object.
int fields_of(Object* object);

// An object in the words of a reply: its caller and serial, or `null`.
std::string name_of(Object* object);
