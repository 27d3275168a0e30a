"""Builds a source of the machine for the .NET that is there."""
import os
import re
import shutil
import stat
import subprocess

import place

PROJECT = """<Project Sdk="Microsoft.NET.Sdk">
  <PropertyGroup>
    <OutputType>Exe</OutputType>
    <AssemblyName>Machine</AssemblyName>
    <TargetFramework>net{major}.0</TargetFramework>
    <AllowUnsafeBlocks>true</AllowUnsafeBlocks>
    <Optimize>true</Optimize>
    <TieredCompilation>false</TieredCompilation>
    <ConcurrentGarbageCollection>false</ConcurrentGarbageCollection>
    <InvariantGlobalization>true</InvariantGlobalization>
    <EnableDefaultCompileItems>false</EnableDefaultCompileItems>
  </PropertyGroup>
  <ItemGroup>
    <Compile Include="{source}" />
  </ItemGroup>
</Project>
"""
# Room for 64 MB of new objects, so that no collection comes but by `collect`, and no collection beside the program.
NET = "export DOTNET_GCgen0size=4000000 DOTNET_gcConcurrent=0 DOTNET_TieredCompilation=0"
# Mono else keeps a copy of a thread's stack from when it last waited inside the runtime, and takes what is there for references.
MONO = "export MONO_GC_PARAMS=nursery-size=64m,major=marksweep MONO_THREADS_SUSPEND=preemptive"


def write(path, text):
    with open(path, "w", encoding="utf-8") as file:
        file.write(text)


def starter(path, sets, starts):
    write(path, f'#!/bin/sh\n{sets}\nexec {starts} "$@"\n')
    os.chmod(path, os.stat(path).st_mode | stat.S_IXUSR | stat.S_IXGRP | stat.S_IXOTH)


def net(source, folder):
    """With the SDK of .NET, for its own version."""
    version = subprocess.run(["dotnet", "--version"], capture_output=True, text=True, check=False).stdout
    major = re.match(r"(\d+)\.", version)
    if not major or int(major[1]) < 6:
        return False
    write(os.path.join(folder, "Machine.csproj"), PROJECT.format(major=major[1], source=source))
    into = os.path.join(folder, "net")
    done = subprocess.run(["dotnet", "build", "-c", "Release", "-o", into, "--nologo", "-v", "quiet"], cwd=folder, check=False)
    if done.returncode != 0:
        place.stop("dotnet does not build Machine.cs")
    starter(os.path.join(folder, "machine"), NET, f"dotnet '{into}/Machine.dll'")
    return True


def mono(source, folder):
    program = os.path.join(folder, "Machine.exe")
    if subprocess.run(["mcs", "-optimize+", "-unsafe", f"-out:{program}", source], check=False).returncode != 0:
        place.stop("mcs does not compile Machine.cs")
    starter(os.path.join(folder, "machine"), MONO, f"mono '{program}'")


def build(source, folder):
    """Builds a source in a folder, and says by what."""
    os.makedirs(folder, exist_ok=True)
    if shutil.which("dotnet") and net(source, folder):
        return "dotnet"
    if shutil.which("mcs") and shutil.which("mono"):
        mono(source, folder)
        return "mono"
    place.stop("this machine has neither dotnet (6 or later) nor mcs and mono (Debian: mono-mcs and mono-runtime)")
