/* Ends rows of decisions, from standard input, as if bohrali had written them: for tests with decisions that are wrong. */
#include "../../frontend/gcc/decisions.h"

#include <iostream>
#include <iterator>

int main()
{
    std::string rows((std::istreambuf_iterator<char>(std::cin)), std::istreambuf_iterator<char>());
    std::cout << rows << "complete " << flow::hash(rows.data(), rows.size()) << "\n";
}
