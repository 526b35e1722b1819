set(chromesquid_libraries "${CMAKE_CURRENT_LIST_DIR}")
set(chromesquid_headers "${CMAKE_CURRENT_LIST_DIR}")

if(NOT TARGET chromesquid::chromesquid)
    add_library(chromesquid::chromesquid SHARED IMPORTED)
    set_target_properties(chromesquid::chromesquid PROPERTIES
        IMPORTED_LOCATION "${chromesquid_libraries}/libchromesquid.so.0"
        IMPORTED_SONAME libchromesquid.so.0
        INTERFACE_INCLUDE_DIRECTORIES "${chromesquid_headers}")
    add_library(chromesquid::static STATIC IMPORTED)
    set_target_properties(chromesquid::static PROPERTIES
        IMPORTED_LOCATION "${chromesquid_libraries}/libchromesquid.a"
        INTERFACE_INCLUDE_DIRECTORIES "${chromesquid_headers}")
endif()
