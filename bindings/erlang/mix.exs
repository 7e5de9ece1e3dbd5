# For projects of Elixir: mix builds with rebar.config's rules. The environment has LIBRARY, a folder that ./build-c made.
defmodule Antientropy.MixProject do
  use Mix.Project

  def project do
    [
      app: :antientropy,
      version: "2.0.0",
      language: :erlang,
      aliases: [compile: [&make/1, "compile"]]
    ]
  end

  defp make(_) do
    {_, 0} = System.cmd("make", ["OUT=.", "./priv/antientropy_nif.so"], into: IO.stream())
  end
end
