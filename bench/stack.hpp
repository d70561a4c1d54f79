// The stack that calls take.
#pragma once

// Prints for each operation the bytes of stack of the call that takes most.
int measure_stack();
