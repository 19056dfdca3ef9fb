# The CMake package that bindings/c/install.sh installs: find_package(hound) gives its static library as hound::hound_c.
# Its files are named from here, so the folder of the installation may be moved.
if(NOT TARGET hound::hound_c)
    get_filename_component(prefix "${CMAKE_CURRENT_LIST_DIR}/../../.." ABSOLUTE)
    add_library(hound::hound_c STATIC IMPORTED)
    set_target_properties(hound::hound_c PROPERTIES
        IMPORTED_LOCATION "${prefix}/lib/libhound_c.a" INTERFACE_INCLUDE_DIRECTORIES "${prefix}/include")
endif()
