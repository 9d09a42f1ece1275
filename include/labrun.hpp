// labrun in C++17, header-only, over labrun.h and labrun_bay.h:
//
//     labrun/lab.hpp     a lab: threads share instruments, and ask for them as they need them
//     labrun/script.hpp  a bench: a script says beforehand what each job does
//     labrun/runs.hpp    whole runs of a script on one thread
//     labrun/errors.hpp  what they throw
//
// What is in labrun/parts is theirs alone.
#pragma once
#include "labrun/lab.hpp"
#include "labrun/runs.hpp"
#include "labrun/script.hpp"
