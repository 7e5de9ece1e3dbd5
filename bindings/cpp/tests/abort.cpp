// Without exceptions the value of a refused call ends the program, and names the refusal.
#include "antientropy.hpp"

int main() { antientropy::Replica::make({3}).value().close(); }
