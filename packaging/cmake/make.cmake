# cmake -DVERSION=.. -DINCLUDE=.. -DTO=.. -P make.cmake: writes the package that find_package(rectangle_pack) reads.
include(CMakePackageConfigHelpers)
configure_file("${CMAKE_CURRENT_LIST_DIR}/rectangle_pack-config.cmake.in" "${TO}/rectangle_pack-config.cmake" @ONLY)
# The library is for one processor, and a program of another is told so by its linker.
write_basic_package_version_file("${TO}/rectangle_pack-config-version.cmake" VERSION "${VERSION}"
    COMPATIBILITY SameMinorVersion ARCH_INDEPENDENT)
