// nlohmann::json: from_cbor, strict, with tags kept as subtypes of byte strings, and to_cbor. Its model is that of JSON.
#include <cstdio>
#include <iostream>
#include <nlohmann/json.hpp>
#include <string>
#include <vector>

using nlohmann::json;

int main() {
    for (std::string line; std::getline(std::cin, line);) {
        std::vector<std::uint8_t> block;
        for (std::size_t i = 0; i + 1 < line.size(); i += 2) block.push_back(std::stoul(line.substr(i, 2), nullptr, 16));
        try {
            auto again = json::to_cbor(json::from_cbor(block, true, true, json::cbor_tag_handler_t::store));
            std::string text = "ok ";
            for (auto byte : again) text += "0123456789abcdef"[byte >> 4], text += "0123456789abcdef"[byte & 15];
            std::cout << text << std::endl;
        } catch (const std::bad_alloc &) {
            std::cout << "refused memory" << std::endl;
        } catch (const std::exception &) {
            std::cout << "refused error" << std::endl;
        }
    }
}
