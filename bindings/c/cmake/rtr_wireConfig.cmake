# For find_package(rtr_wire): the calls of rtr.h, and the client and the cache in C on top of them.
#
#   rtr::wire, rtr::client                  the shared library, or the archives where there is none
#   rtr::wire_static, rtr::client_static    the archives
#
# It is part of an installation, or of the tar file for C. That has no shared library: it compiles
# the client and the cache, and on a machine without an archive the C file, so that the project
# needs the language C.
if(TARGET rtr::wire)
    return()
endif()

get_filename_component(_rtr_libraries "${CMAKE_CURRENT_LIST_DIR}/../.." ABSOLUTE)
get_filename_component(_rtr_prefix "${_rtr_libraries}/.." ABSOLUTE)
if(NOT EXISTS "${_rtr_prefix}/include/rtr.h")
    # The libraries are in a folder of their machine.
    get_filename_component(_rtr_prefix "${_rtr_prefix}/.." ABSOLUTE)
endif()
set(_rtr_include "${_rtr_prefix}/include")
set(_rtr_archive "${_rtr_libraries}/librtr_wire.a")
set(_rtr_shared "${_rtr_libraries}/librtr_wire.so")
if(NOT EXISTS "${_rtr_archive}" AND CMAKE_SYSTEM_NAME STREQUAL "Linux")
    set(_rtr_archive "${_rtr_libraries}/${CMAKE_SYSTEM_PROCESSOR}/librtr_wire.a")
endif()

# A target of this name that passes on this one.
macro(_rtr_also name other)
    add_library(${name} INTERFACE IMPORTED)
    set_target_properties(${name} PROPERTIES INTERFACE_LINK_LIBRARIES "${other}")
endmacro()

if(EXISTS "${_rtr_archive}")
    add_library(rtr::wire_static STATIC IMPORTED)
    set_target_properties(rtr::wire_static PROPERTIES
        IMPORTED_LOCATION "${_rtr_archive}" INTERFACE_INCLUDE_DIRECTORIES "${_rtr_include}")
elseif(EXISTS "${_rtr_prefix}/portable/rtr_wire.c")
    add_library(rtr_wire_portable STATIC EXCLUDE_FROM_ALL "${_rtr_prefix}/portable/rtr_wire.c")
    target_include_directories(rtr_wire_portable PUBLIC "${_rtr_include}")
    target_compile_options(rtr_wire_portable PRIVATE -O2)
    _rtr_also(rtr::wire_static rtr_wire_portable)
else()
    set(rtr_wire_FOUND FALSE)
    set(rtr_wire_NOT_FOUND_MESSAGE "no librtr_wire.a for ${CMAKE_SYSTEM_PROCESSOR}")
    return()
endif()

if(EXISTS "${_rtr_libraries}/librtr_client.a")
    add_library(rtr::cache_static STATIC IMPORTED)
    set_target_properties(rtr::cache_static PROPERTIES
        IMPORTED_LOCATION "${_rtr_libraries}/librtr_cache.a"
        INTERFACE_LINK_LIBRARIES rtr::wire_static)
    add_library(rtr::client_static STATIC IMPORTED)
    set_target_properties(rtr::client_static PROPERTIES
        IMPORTED_LOCATION "${_rtr_libraries}/librtr_client.a"
        INTERFACE_LINK_LIBRARIES "rtr::cache_static;rtr::wire_static")
else()
    add_library(rtr_client_and_cache STATIC EXCLUDE_FROM_ALL
        "${_rtr_prefix}/src/rtr_client.c" "${_rtr_prefix}/src/rtr_cache.c")
    target_link_libraries(rtr_client_and_cache PUBLIC rtr::wire_static)
    _rtr_also(rtr::client_static rtr_client_and_cache)
endif()

if(EXISTS "${_rtr_shared}")
    add_library(rtr::wire SHARED IMPORTED)
    set_target_properties(rtr::wire PROPERTIES
        IMPORTED_LOCATION "${_rtr_shared}" INTERFACE_INCLUDE_DIRECTORIES "${_rtr_include}")
    _rtr_also(rtr::client rtr::wire)
else()
    _rtr_also(rtr::wire rtr::wire_static)
    _rtr_also(rtr::client rtr::client_static)
endif()
