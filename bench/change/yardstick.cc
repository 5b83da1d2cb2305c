// The yardstick of main.rt.txt: SPIRV-Tools' optimizer specialises the same modules by the passes that do the same.
// `yardstick write` writes what it makes of each module beside it.
// Built with: g++ -O2 yardstick.cc -lSPIRV-Tools-opt -lSPIRV-Tools

#include <spirv-tools/libspirv.h>
#include <spirv-tools/optimizer.hpp>

#include <chrono>
#include <cstdint>
#include <cstdio>
#include <cstring>
#include <fstream>
#include <iterator>
#include <string>
#include <unordered_map>
#include <vector>

using Words = std::vector<uint32_t>;

constexpr int kTurns = 20;
constexpr int kRounds = 5;

static const char* const kNames[] = {
    "straight",   "selections",  "loops",       "few_loops",           "division",    "flat.frag",
    "flat.vert",  "flat_inputs.frag", "fractal.frag", "loop.frag",     "nested.frag", "push_constants.frag",
    "switch.frag", "terrain.frag", "terrain.vert", "tiles.frag",       "uniform_block.frag", "vertex_outputs.vert",
};

static Words Read(const std::string& path) {
  std::ifstream file(path, std::ios::binary);
  std::vector<char> bytes((std::istreambuf_iterator<char>(file)), std::istreambuf_iterator<char>());
  Words words(bytes.size() / 4);
  std::memcpy(words.data(), bytes.data(), words.size() * 4);
  return words;
}

static bool Specialise(const Words& module, const Words& entries, Words* left) {
  std::unordered_map<uint32_t, Words> values;
  for (size_t at = 0; at + 1 < entries.size(); at += 2) values[entries[at]] = {entries[at + 1]};
  spvtools::Optimizer optimizer(SPV_ENV_UNIVERSAL_1_0);
  optimizer.RegisterPass(spvtools::CreateSetSpecConstantDefaultValuePass(values))
      .RegisterPass(spvtools::CreateFreezeSpecConstantValuePass())
      .RegisterPass(spvtools::CreateFoldSpecConstantOpAndCompositePass())
      .RegisterPass(spvtools::CreateSimplificationPass())
      .RegisterPass(spvtools::CreateDeadBranchElimPass());
  spvtools::OptimizerOptions options;
  options.set_run_validator(false);
  return optimizer.Run(module.data(), module.size(), left, options);
}

static void Write(const std::string& name) {
  Words left;
  if (!Specialise(Read(name + ".spv"), Read(name + ".entries"), &left)) std::fprintf(stderr, "%s: refused\n", name.c_str());
  std::ofstream file(name + ".theirs.spv", std::ios::binary);
  file.write(reinterpret_cast<const char*>(left.data()), static_cast<std::streamsize>(left.size() * 4));
}

static void Time(const std::string& name, const char* what) {
  const Words module = Read(name + ".spv");
  const Words entries = Read(name + ".entries");
  for (int round = 0; round < kRounds; ++round) {
    const auto before = std::chrono::steady_clock::now();
    for (int turn = 0; turn < kTurns; ++turn) {
      Words left;
      if (!Specialise(module, entries, &left)) std::fprintf(stderr, "%s: refused\n", name.c_str());
    }
    const auto nanos = std::chrono::duration_cast<std::chrono::nanoseconds>(std::chrono::steady_clock::now() - before).count();
    std::printf("%s, %s\t%lld\t%zu\n", name.c_str(), what, static_cast<long long>(nanos), module.size() * kTurns);
  }
}

int main(int count, char** words) {
  const bool writes = count == 2 && std::strcmp(words[1], "write") == 0;
  if (writes) std::fprintf(stderr, "%s\n", spvSoftwareVersionDetailsString());
  for (const char* name : kNames) {
    if (writes) {
      Write(name);
    } else {
      Time(name, "specialise");
      Time(name, "check to write");
    }
  }
}
