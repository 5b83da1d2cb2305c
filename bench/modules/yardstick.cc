// The yardstick of main.rt.txt: SPIRV-Tools parses and validates the same modules.
// Built with: g++ -O2 yardstick.cc -lSPIRV-Tools

#include <spirv-tools/libspirv.h>

#include <chrono>
#include <cstdint>
#include <cstdio>
#include <fstream>
#include <functional>
#include <iterator>
#include <string>
#include <vector>

constexpr int kParses = 100;
constexpr int kValidations = 10;
constexpr int kRounds = 5;

static std::vector<uint32_t> ReadModule(const std::string& name) {
  std::ifstream file(name + ".spv", std::ios::binary);
  std::vector<char> bytes((std::istreambuf_iterator<char>(file)), std::istreambuf_iterator<char>());
  const auto* first = reinterpret_cast<const uint32_t*>(bytes.data());
  return {first, first + bytes.size() / 4};
}

static spv_result_t Header(void*, spv_endianness_t, uint32_t, uint32_t, uint32_t, uint32_t, uint32_t) { return SPV_SUCCESS; }

static spv_result_t Instruction(void* count, const spv_parsed_instruction_t*) {
  ++*static_cast<uint64_t*>(count);
  return SPV_SUCCESS;
}

static void Time(const std::string& name, size_t words, int turns, const std::function<bool()>& call) {
  for (int round = 0; round < kRounds; ++round) {
    const auto before = std::chrono::steady_clock::now();
    for (int turn = 0; turn < turns; ++turn) {
      if (!call()) std::fprintf(stderr, "%s: refused\n", name.c_str());
    }
    const auto nanos = std::chrono::duration_cast<std::chrono::nanoseconds>(std::chrono::steady_clock::now() - before).count();
    std::printf("%s\t%lld\t%zu\n", name.c_str(), static_cast<long long>(nanos), words * turns);
  }
}

int main() {
  spv_context context = spvContextCreate(SPV_ENV_UNIVERSAL_1_0);
  for (const std::string name : {"straight", "selections", "loops", "few_loops"}) {
    const std::vector<uint32_t> words = ReadModule(name);
    Time(name + ", read", words.size(), kParses, [&] {
      uint64_t count = 0;
      return spvBinaryParse(context, &count, words.data(), words.size(), Header, Instruction, nullptr) == SPV_SUCCESS;
    });
    for (const std::string call : {", read, tree and ids", ", check"}) {
      Time(name + call, words.size(), kValidations,
           [&] { return spvValidateBinary(context, words.data(), words.size(), nullptr) == SPV_SUCCESS; });
    }
  }
  spvContextDestroy(context);
}
