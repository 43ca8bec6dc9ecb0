// The fast kernels against plain arithmetic: add against two sums, mul of known operands against a plain product. This is a program of
// its own, and all its functions and loops are aligned (bench/run), so that no other code moves a time. ADDED bytes of code before
// everything show it.
#include "calls.h"
#include "goals.h"
#include "plain.h"

asm(".text\n.skip " ADDED ", 0x90");

namespace {

constexpr Goal add_goal = {"add at most 1.5 times two sums", 1.5, false};
constexpr Goal known_goal = {"mul of known operands at most 1.5 times a plain product", 1.5, false};

// The yardsticks, called as an operation is.
Planes sums(uint32_t, uint32_t ma, uint32_t va, uint32_t mb, uint32_t vb)
{
    return two_sums(ma, va, mb, vb);
}

Planes product(uint32_t w, uint32_t, uint32_t va, uint32_t, uint32_t vb)
{
    return plain_product(w, va, vb);
}

// The table's line of a kernel and its yardstick.
Line line_of(const char *kernel, const char *plain, const Inputs &inputs, const double *times)
{
    return {kernel, plain, name_of(inputs), figure(times[0] / PAIRS), figure(times[1] / PAIRS), figure(times[0] / times[1])};
}

Measured ratio_of(const Inputs &inputs, const double *times)
{
    return {"unknown bits " + name_of(inputs), times[0] / times[1]};
}

} // namespace

int main()
{
    std::vector<Inputs> inputs = draw_inputs();
    const Inputs &known = inputs.front();
    if (!agree("plain product and kernel_mul", product, kernel_mul, known))
        return 1;
    std::vector<Pass> contestants = {pass<kernel_mul>(known), pass<product>(known)};
    for (const Inputs &i : inputs)
        contestants.insert(contestants.end(), {pass<kernel_add>(i), pass<sums>(i)});
    std::vector<double> times = measure(contestants);
    std::vector<Line> lines = {{"kernel", "plain", "unknown bits", "kernel, ns", "plain, ns", "kernel / plain"},
                               line_of("kernel_mul", "product", known, &times[0])};
    std::vector<Measured> ratios;
    for (std::size_t i = 0; i < inputs.size(); i++) {
        lines.push_back(line_of("kernel_add", "two sums", inputs[i], &times[2 + 2 * i]));
        ratios.push_back(ratio_of(inputs[i], &times[2 + 2 * i]));
    }
    print_markdown(lines);
    std::printf("\n");
    print_verdict(known_goal, {ratio_of(known, &times[0])});
    print_verdict(add_goal, ratios);
    return 0;
}
