# libetcs for CMake: find_package(etcs), and then etcs::etcs for the shared library or etcs::static for the static one.
if(NOT TARGET etcs::etcs)
    get_filename_component(etcs_lib "${CMAKE_CURRENT_LIST_DIR}/../.." REALPATH)
    get_filename_component(etcs_top "${etcs_lib}/.." REALPATH)
    add_library(etcs::etcs SHARED IMPORTED)
    set_target_properties(etcs::etcs PROPERTIES
        IMPORTED_LOCATION "${etcs_lib}/libetcs.so.1"
        IMPORTED_SONAME libetcs.so.1
        INTERFACE_INCLUDE_DIRECTORIES "${etcs_top}/include")
    add_library(etcs::static STATIC IMPORTED)
    set_target_properties(etcs::static PROPERTIES
        IMPORTED_LOCATION "${etcs_lib}/libetcs.a"
        INTERFACE_INCLUDE_DIRECTORIES "${etcs_top}/include")
    unset(etcs_lib)
    unset(etcs_top)
endif()
