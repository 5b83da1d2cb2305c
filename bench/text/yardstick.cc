// The yardstick of main.rt.txt: SPIRV-Tools disassembles the same modules, with raw ids and without a header, assembles its own
// text of them, and refuses the same instruction of millions of ids.
// Built with: g++ -O2 yardstick.cc -lSPIRV-Tools

#include <spirv-tools/libspirv.h>

#include <chrono>
#include <cstdint>
#include <cstdio>
#include <fstream>
#include <functional>
#include <iterator>
#include <string>
#include <vector>

constexpr int kTurns = 20;
constexpr int kRounds = 5;
constexpr size_t kListingBytes = 16777216;

static std::vector<uint32_t> ReadModule(const std::string& name) {
  std::ifstream file(name + ".spv", std::ios::binary);
  std::vector<char> bytes((std::istreambuf_iterator<char>(file)), std::istreambuf_iterator<char>());
  const auto* first = reinterpret_cast<const uint32_t*>(bytes.data());
  return {first, first + bytes.size() / 4};
}

static bool List(spv_context context, const std::vector<uint32_t>& words, std::string* listing) {
  spv_text text = nullptr;
  const bool listed =
      spvBinaryToText(context, words.data(), words.size(), SPV_BINARY_TO_TEXT_OPTION_NO_HEADER, &text, nullptr) == SPV_SUCCESS;
  if (listed && listing) listing->assign(text->str, text->length);
  spvTextDestroy(text);
  return listed;
}

static bool Assemble(spv_context context, const std::string& listing, size_t words) {
  spv_binary binary = nullptr;
  const bool assembled = spvTextToBinaryWithOptions(context, listing.data(), listing.size(),
                                                    SPV_TEXT_TO_BINARY_OPTION_PRESERVE_NUMERIC_IDS, &binary, nullptr) == SPV_SUCCESS;
  const bool whole = assembled && binary->wordCount == words;
  spvBinaryDestroy(binary);
  return whole;
}

static void Time(const std::string& name, size_t units, int turns, const std::function<bool()>& call) {
  for (int round = 0; round < kRounds; ++round) {
    const auto before = std::chrono::steady_clock::now();
    for (int turn = 0; turn < turns; ++turn) {
      if (!call()) std::fprintf(stderr, "%s: another answer\n", name.c_str());
    }
    const auto nanos = std::chrono::duration_cast<std::chrono::nanoseconds>(std::chrono::steady_clock::now() - before).count();
    std::printf("%s\t%lld\t%zu\n", name.c_str(), static_cast<long long>(nanos), units * turns);
  }
}

int main() {
  spv_context context = spvContextCreate(SPV_ENV_UNIVERSAL_1_0);
  for (const std::string name : {"straight", "selections", "loops", "few_loops"}) {
    const std::vector<uint32_t> words = ReadModule(name);
    std::string listing;
    Time(name + ", list", words.size(), kTurns, [&] { return List(context, words, nullptr); });
    if (!List(context, words, &listing)) std::fprintf(stderr, "%s: not listed\n", name.c_str());
    Time(name + ", assemble", words.size(), kTurns, [&] { return Assemble(context, listing, words.size()); });
  }
  std::string ids = "%1 = OpTypeStruct";
  while (ids.size() + 4 < kListingBytes) ids += " %1";
  Time("ids, refuse", ids.size(), 1, [&] { return !Assemble(context, ids, 0); });
  spvContextDestroy(context);
}
