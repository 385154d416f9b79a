// A game loop in C++17: a class that owns a world, moves it on and hands out what changed. The
// "renderer" keeps a copy of each field that it draws; at the end the copy is compared with the world.
#include "x3d.h"
#include <cstdio>
#include <map>
#include <stdexcept>
#include <string>
#include <string_view>
#include <utility>
#include <vector>

namespace {

struct Fault : std::runtime_error {
  explicit Fault(uint8_t status) : std::runtime_error(x3d_status_text(status)), status(status) {}
  uint8_t status;
};

void check(uint8_t status) {
  if (status != X3D_DONE) throw Fault(status);
}

// A field that was set, with the numbers of its current value.
struct Field {
  uint32_t node;
  uint16_t field;
  std::vector<int64_t> numbers;
};

class World {
public:
  explicit World(std::string_view text) {
    uint8_t line[64];
    size_t wanted = 0;
    auto status = x3d_world_open(&world_, bytes(text), text.size(), line, sizeof line, &wanted);
    if (status == X3D_SCENE)
      throw std::runtime_error(std::string(reinterpret_cast<char *>(line), wanted));
    check(status);
  }
  ~World() { x3d_world_close(&world_); }
  World(const World &) = delete;
  World &operator=(const World &) = delete;
  // A handle may be moved, if the old place is not used again.
  World(World &&other) noexcept
      : world_(std::exchange(other.world_, x3d_world X3D_NONE)), number_(other.number_),
        drawn_(other.drawn_) {}

  void clock(int64_t time) {
    x3d_work work;
    check(x3d_world_clock(&world_, number_ + 1, time, &work));
    ++number_;
  }

  void point(int64_t time, bool down, const x3d_aim &aim) {
    x3d_work work;
    check(x3d_world_point(&world_, number_ + 1, time, 0, down, &aim, &work));
    ++number_;
  }

  // Hands out each field that was set since the last call, once.
  template <typename Draw> void draw(Draw &&draw) {
    check(x3d_world_list_changed(&world_, drawn_));
    size_t count = 0, all = 0;
    while (x3d_world_copy_changed(&world_, changes_.data(), changes_.size(), &count) == X3D_ROOM)
      changes_.resize(count);
    while (x3d_world_copy_numbers(&world_, numbers_.data(), numbers_.size(), &all) == X3D_ROOM)
      numbers_.resize(all);
    for (size_t k = 0; k < count; k++)
      draw(changes_[k], numbers_.data() + changes_[k].first);
    drawn_ = number_;
  }

  uint32_t node_count() {
    size_t count = 0;
    check(x3d_world_node_count(&world_, &count));
    return static_cast<uint32_t>(count);
  }

  uint32_t field_count(uint32_t node) {
    uint32_t count = 0;
    check(x3d_world_field_count(&world_, node, &count));
    return count;
  }

  uint16_t field_named(uint32_t node, std::string_view name) {
    uint16_t field = 0;
    check(x3d_world_field_named(&world_, node, bytes(name), name.size(), &field));
    return field;
  }

  // The root with this number.
  uint32_t root(size_t place) {
    check(x3d_world_list_roots(&world_));
    std::vector<int64_t> roots(1);
    size_t count = 0;
    while (x3d_world_copy_numbers(&world_, roots.data(), roots.size(), &count) == X3D_ROOM)
      roots.resize(count);
    return static_cast<uint32_t>(roots.at(place));
  }

  // The numbers of a field, or nothing if it holds no value.
  std::vector<int64_t> numbers(uint32_t node, uint16_t field) {
    auto status = x3d_world_list_value(&world_, node, field);
    if (status == X3D_NO_VALUE) return {};
    check(status);
    std::vector<int64_t> out(1);
    size_t count = 0;
    while (x3d_world_copy_numbers(&world_, out.data(), out.size(), &count) == X3D_ROOM)
      out.resize(count);
    out.resize(count);
    return out;
  }

private:
  static const uint8_t *bytes(std::string_view text) {
    return reinterpret_cast<const uint8_t *>(text.data());
  }

  x3d_world world_ = X3D_NONE;
  uint64_t number_ = 0, drawn_ = 0;
  std::vector<x3d_change> changes_;
  std::vector<int64_t> numbers_;
};

constexpr std::string_view scene = "#X3D V3.0 utf8\n"
                                   "DEF Motor TimeSensor { cycleInterval 2 }\n"
                                   "DEF Slide PositionInterpolator {\n"
                                   "  key [ 0, 1 ] keyValue [ 0 0 0, 1 0 0 ]\n"
                                   "}\n"
                                   "DEF Door Transform {\n"
                                   "  children [\n"
                                   "    DEF Knob TouchSensor {}\n"
                                   "    Shape { geometry Box { size 1 2 0.1 } }\n"
                                   "  ]\n"
                                   "}\n"
                                   "ROUTE Knob.touchTime TO Motor.startTime\n"
                                   "ROUTE Motor.fraction_changed TO Slide.set_fraction\n"
                                   "ROUTE Slide.value_changed TO Door.translation\n";

using Picture = std::map<std::pair<uint32_t, uint16_t>, std::vector<int64_t>>;

// The picture of the whole scene, as at the start.
Picture walked(World &world) {
  Picture picture;
  for (uint32_t node = 0; node < world.node_count(); node++)
    for (uint32_t field = 0; field < world.field_count(node); field++)
      picture[{node, static_cast<uint16_t>(field)}] =
          world.numbers(node, static_cast<uint16_t>(field));
  return picture;
}

int run() {
  World opened(scene), world(std::move(opened));
  Picture picture = walked(world);
  const x3d_aim aim{0, 0, 10000000, 0, 0, -1000000};
  int64_t time = 10000000;
  size_t drawn = 0;
  for (int frame = 0; frame < 180; frame++) {
    if (frame == 10) world.point(++time, true, aim); // the user presses a button,
    if (frame == 14) world.point(++time, false, aim); // and releases it: the door opens
    world.clock(time += 16667);
    world.draw([&](const x3d_change &change, const int64_t *numbers) {
      picture[{change.node, change.field}].assign(numbers, numbers + change.count);
      drawn++;
    });
  }
  const uint32_t door = world.root(2);
  auto place = picture[{door, world.field_named(door, "translation")}];
  std::printf("180 frames, %zu fields drawn, the door is at %lld millionths\n", drawn,
              static_cast<long long>(place.at(0)));
  return picture == walked(world) && place.at(0) == 1000000 ? 0 : 1;
}

} // namespace

int main() {
  try {
    return run();
  } catch (const std::exception &why) {
    std::fprintf(stderr, "frame: %s\n", why.what());
    return 1;
  }
}
