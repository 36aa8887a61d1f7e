# find_package(Citrus): the target Citrus::citrus is the archive, and Citrus::shared the shared library.
if(NOT TARGET Citrus::citrus)
    get_filename_component(citrus_here "${CMAKE_CURRENT_LIST_DIR}" REALPATH)
    get_filename_component(citrus_libraries "${citrus_here}/../.." ABSOLUTE)
    get_filename_component(citrus_prefix "${citrus_here}/@UP@" ABSOLUTE)
    add_library(Citrus::citrus STATIC IMPORTED)
    set_target_properties(Citrus::citrus PROPERTIES
        IMPORTED_LOCATION "${citrus_libraries}/libcitrus.a"
        IMPORTED_LINK_INTERFACE_LANGUAGES C
        INTERFACE_INCLUDE_DIRECTORIES "${citrus_prefix}/include")
    add_library(Citrus::shared SHARED IMPORTED)
    set_target_properties(Citrus::shared PROPERTIES
        IMPORTED_LOCATION "${citrus_libraries}/@SONAME@"
        IMPORTED_SONAME "@SONAME@"
        INTERFACE_INCLUDE_DIRECTORIES "${citrus_prefix}/include")
    unset(citrus_here)
    unset(citrus_libraries)
    unset(citrus_prefix)
endif()
